//! The generated files reach what they are for, and the model passes its own
//! judge and the laws on them.

mod common;

use cevoluneth_model::files::{plan, Plan, Profile};
use cevoluneth_model::judge::judge;
use cevoluneth_model::laws::check_bytes;
use cevoluneth_model::records::{Refusal, Request, RequestFile};
use cevoluneth_model::scheduler::{Pair, Scheduler, Step};
use cevoluneth_model::server::serve;
use std::collections::{BTreeMap, BTreeSet};

/// All steps of the first `count` files of a profile, in both pairs.
fn steps(profile: Profile, count: usize) -> Vec<(Pair, Request, Step)> {
    let inputs = (0..count).map(|index| Plan { profile, index }.bytes(3));
    inputs
        .flat_map(|input| {
            let requests = RequestFile::read(&input).requests;
            Pair::BOTH.map(|pair| {
                let mut scheduler = Scheduler::new(pair);
                let calls = requests.iter();
                calls
                    .map(|&(_, request)| (pair, request, scheduler.call(request)))
                    .collect::<Vec<_>>()
            })
        })
        .flatten()
        .collect()
}

fn retries_refused(steps: &[(Pair, Request, Step)], pair: Pair, refusal: Refusal) -> usize {
    let is_such = |step: &&(Pair, Request, Step)| {
        step.0 == pair
            && matches!(step.1, Request::Retry { .. })
            && step.2 == Step::Refused(refusal)
    };
    steps.iter().filter(is_such).count()
}

#[test]
fn same_seed_same_files() {
    let files = |seed| -> Vec<_> { plan(150).iter().map(|plan| plan.bytes(seed)).collect() };
    assert_eq!(files(4), files(4));
    assert_ne!(files(4), files(5));
}

#[test]
fn plans_have_every_profile() {
    let profiles: BTreeSet<_> = plan(100).iter().map(|plan| plan.profile).collect();
    assert_eq!(profiles.len(), 17);
    assert_eq!(plan(3).len(), 3);
}

#[test]
fn the_model_passes() {
    for plan in plan(240) {
        let input = plan.bytes(9);
        for pair in Pair::BOTH {
            let output = serve(pair, &input);
            assert_eq!(judge(pair, &input, &output), Ok(()), "{plan:?}");
            assert_eq!(check_bytes(pair, &input, &output), Ok(()), "{plan:?}");
        }
    }
}

#[test]
fn lock_list_files_fill_the_list() {
    let steps = steps(Profile::LockList, 4);
    for pair in Pair::BOTH {
        assert!(retries_refused(&steps, pair, Refusal::LockListFull) > 0);
    }
}

#[test]
fn lock_list_files_fill_the_room_as_well() {
    for pair in Pair::BOTH {
        let mut met = 0;
        for index in 0..8 {
            let profile = Profile::LockList;
            let input = Plan { profile, index }.bytes(1);
            let mut scheduler = Scheduler::new(pair);
            for (_, request) in RequestFile::read(&input).requests {
                let step = scheduler.call(request);
                let both = scheduler.pending_count() == 512 && scheduler.lock_count() == 2_048;
                let is_write = matches!(request, Request::Write { .. });
                let list_full = step == Step::Refused(Refusal::LockListFull);
                met += usize::from(both && is_write && list_full);
            }
        }
        assert!(met > 0, "{pair:?}");
    }
}

#[test]
fn room_files_fill_the_room() {
    let steps = steps(Profile::Room, 12);
    let in_place = retries_refused(&steps, Pair::InPlace, Refusal::NoRoom);
    assert!(in_place > 0, "no retry met a full store");
    let no_room = Step::Refused(Refusal::NoRoom);
    assert!(steps
        .iter()
        .any(|(pair, _, step)| *pair == Pair::Private && *step == no_room));
}

#[test]
fn chain_files_have_deadlocks_of_every_kind() {
    let steps = steps(Profile::Chains, 63);
    for pair in Pair::BOTH {
        let ended: Vec<_> = steps
            .iter()
            .filter(|(of, _, step)| *of == pair && matches!(step, Step::Deadlock { .. }))
            .map(|(_, request, _)| request)
            .collect();
        let has = |kind: fn(&Request) -> bool| ended.iter().any(|request| kind(request));
        assert!(has(|request| matches!(request, Request::Read { .. })));
        assert!(has(|request| matches!(request, Request::Commit { .. })));
        let writes = has(|request| matches!(request, Request::Write { .. }));
        assert_eq!(writes, pair == Pair::InPlace);
    }
}

/// How many transactions stand in the longest chain that begins with `t`.
fn chain_from(waits: &BTreeMap<u16, BTreeSet<u16>>, t: u16) -> usize {
    let behind = waits.get(&t).into_iter().flatten();
    1 + behind
        .map(|&next| chain_from(waits, next))
        .max()
        .unwrap_or(0)
}

/// The lengths of the longest chains of waits as they stand after each wait.
fn chain_lengths(steps: &[(Pair, Request, Step)], pair: Pair) -> BTreeSet<usize> {
    let mut waits: BTreeMap<u16, BTreeSet<u16>> = BTreeMap::new();
    let mut lengths = BTreeSet::new();
    for (_, _, step) in steps.iter().filter(|step| step.0 == pair) {
        match step {
            // A file begins.
            Step::Opened { t: 1 } => waits.clear(),
            Step::Wait { t, blockers } => {
                waits.insert(*t, blockers.clone());
                lengths.extend(waits.keys().map(|&t| chain_from(&waits, t)).max());
            }
            Step::Value { t, .. } | Step::Written { t, .. } => {
                waits.remove(t);
            }
            Step::Committed { t } | Step::Aborted { t } | Step::Deadlock { t } => {
                waits.remove(t);
                waits.values_mut().for_each(|blockers| {
                    blockers.remove(t);
                });
            }
            Step::Opened { .. } | Step::Refused(_) => {}
        }
    }
    lengths
}

#[test]
fn chain_files_have_every_length() {
    let steps = steps(Profile::Chains, 2 * 63);
    for pair in Pair::BOTH {
        assert_eq!(chain_lengths(&steps, pair), (2..=64).collect());
    }
}

#[test]
fn reader_files_have_waits_for_many() {
    let steps = steps(Profile::Readers, 12);
    let most = steps.iter().filter_map(|(_, _, step)| match step {
        Step::Wait { blockers, .. } => Some(blockers.len()),
        _ => None,
    });
    assert!(most.max() >= Some(40));
}

/// Waits never close into a ring, and a new lock makes others wait only for one
/// who is active then. So a retry waits again or goes on, but ends nobody.
#[test]
fn retries_never_end_in_a_deadlock() {
    let mut retries = 0;
    for profile in [Profile::Hot, Profile::Mixed, Profile::Readers] {
        for (_, request, step) in steps(profile, 8) {
            if matches!(request, Request::Retry { .. }) {
                assert!(!matches!(step, Step::Deadlock { .. }));
                retries += usize::from(matches!(step, Step::Wait { .. }));
            }
        }
    }
    assert!(retries > 1_000, "only {retries} retries waited again");
}

#[test]
fn lengths_around_the_limit() {
    let lengths = (0..6).map(|index| {
        let plan = Plan {
            profile: Profile::Lengths,
            index,
        };
        plan.bytes(1).len()
    });
    let lengths: Vec<_> = lengths.collect();
    assert_eq!(lengths, [59_999, 60_000, 60_001, 60_002, 65_536, 200_000]);
}

#[test]
fn cuts_are_made_at_consecutive_places() {
    let cut = |index| {
        Plan {
            profile: Profile::Cut,
            index,
        }
        .bytes(1)
    };
    for index in 1..150 {
        let (shorter, longer) = (cut(index - 1), cut(index));
        assert_eq!(longer.len(), index);
        assert!(longer.starts_with(&shorter));
    }
}
