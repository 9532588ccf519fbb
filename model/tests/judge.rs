//! The judge takes what is right and refuses each kind of fault.

mod common;

use cevoluneth_model::files::{Plan, Profile};
use cevoluneth_model::judge::{judge, Fault};
use cevoluneth_model::records::{request_bytes, Answer, Refusal, Request};
use cevoluneth_model::scheduler::Pair;
use cevoluneth_model::server::serve;
use common::*;

/// Two readers of item 5, a writer of it that waits, and some refusals;
/// before that, two commits that leave values.
fn requests() -> Vec<Request> {
    let mut all = vec![B, w(1, 9, -4), w(1, 7, 70), w(1, 8, 0), c(1), B, r(2, 7)];
    all.extend([B, B, r(2, 5), r(3, 5), w(4, 5, 1), c(4), r(9, 9), again(3)]);
    all
}

fn answers() -> Vec<Answer> {
    let refuse = |refusal: Refusal, place| refusal.at(place);
    vec![
        opened(1),
        written(1, 9),
        written(1, 7),
        written(1, 8),
        committed(1),
        opened(2),
        value(2, 7, 70),
        opened(3),
        opened(4),
        value(2, 5, 0),
        value(3, 5, 0),
        written(4, 5),
        wait(4, 2),
        refuse(Refusal::NotOpen, 61),
        refuse(Refusal::NotWaiting, 66),
        still_open(2, false),
        still_open(3, false),
        still_open(4, true),
        holds(7, 70),
        holds(9, -4),
    ]
}

fn still_open(t: u16, waiting: bool) -> Answer {
    Answer::StillOpen { t, waiting }
}

fn holds(item: u16, value: i32) -> Answer {
    Answer::Holds { item, value }
}

fn bytes(answers: &[Answer]) -> Vec<u8> {
    answers
        .iter()
        .flat_map(|answer| answer.to_bytes())
        .collect()
}

fn judged(answers: &[Answer]) -> Result<(), Fault> {
    let input = request_bytes(&requests());
    let of = |pair| judge(pair, &input, &bytes(answers));
    assert_eq!(of(Pair::InPlace), of(Pair::Private));
    of(Pair::InPlace)
}

/// The answers with the one at `index` replaced, and the offset of that one.
fn replaced(index: usize, answer: Answer) -> (Vec<Answer>, usize) {
    let mut all = answers();
    let offset = bytes(&all[..index]).len();
    assert_ne!(all[index], answer);
    all[index] = answer;
    (all, offset)
}

fn assert_refused_at(index: usize, answer: Answer) {
    let (all, offset) = replaced(index, answer);
    let fault = judged(&all).expect_err("a fault");
    assert_eq!(fault.offset, offset, "{fault}");
}

#[test]
fn the_right_answers_pass() {
    assert_eq!(judged(&answers()), Ok(()));
}

#[test]
fn any_blocker_passes() {
    assert_eq!(judged(&replaced(12, wait(4, 3)).0), Ok(()));
}

#[test]
fn open_ones_pass_in_any_order() {
    let mut all = answers();
    all[15..18].reverse();
    assert_eq!(judged(&all), Ok(()));
    all.swap(15, 16);
    assert_eq!(judged(&all), Ok(()));
}

#[test]
fn wrong_records_are_refused() {
    assert_refused_at(0, opened(2));
    assert_refused_at(6, value(2, 7, 71));
    assert_refused_at(9, value(2, 5, 1));
    assert_refused_at(3, written(1, 9));
    assert_refused_at(4, aborted(1));
    assert_refused_at(4, deadlock(1));
}

#[test]
fn waits_for_no_blocker_are_refused() {
    for blocker in [0, 1, 4, 5, 65_535] {
        assert_refused_at(12, wait(4, blocker));
    }
    assert_refused_at(12, wait(3, 2));
    assert_refused_at(12, committed(4));
}

#[test]
fn wrong_refusals_are_refused() {
    assert_refused_at(13, Refusal::NotOpen.at(60));
    assert_refused_at(13, Refusal::NotOpen.at(62));
    assert_refused_at(13, Refusal::NoSuchItem.at(61));
    let other_layer = Answer::Refused {
        layer: 3,
        number: 4,
        place: 61,
    };
    assert_refused_at(13, other_layer);
}

#[test]
fn wrong_open_ones_are_refused() {
    assert_refused_at(17, still_open(4, false));
    assert_refused_at(15, still_open(2, true));
    assert_refused_at(16, still_open(2, false));
    assert_refused_at(15, still_open(1, false));
    for missing in 15..18 {
        let mut all = answers();
        all.remove(missing);
        assert_eq!(judged(&all).unwrap_err().offset, bytes(&all[..17]).len());
    }
}

#[test]
fn wrong_values_are_refused() {
    let mut swapped = answers();
    swapped.swap(18, 19);
    assert_eq!(
        judged(&swapped).unwrap_err().offset,
        bytes(&swapped[..18]).len()
    );
    for (index, extra) in [
        (19, holds(8, 0)),
        (20, holds(10, 1)),
        (18, holds(5, 1)),
        (20, holds(9, -4)),
    ] {
        let mut all = answers();
        all.insert(index, extra);
        assert_eq!(
            judged(&all).unwrap_err().offset,
            bytes(&all[..index]).len(),
            "{extra:?}"
        );
    }
    assert_refused_at(19, holds(9, 4));
    let without = &answers()[..19];
    assert_eq!(judged(without).unwrap_err().offset, bytes(without).len());
}

#[test]
fn a_value_before_an_open_one_is_refused() {
    let mut all = answers();
    all.swap(17, 18);
    assert_eq!(judged(&all).unwrap_err().offset, bytes(&all[..17]).len());
}

#[test]
fn cut_and_trailing_bytes_are_refused() {
    let input = request_bytes(&requests());
    let right = bytes(&answers());
    for length in 0..right.len() {
        assert!(judge(Pair::InPlace, &input, &right[..length]).is_err());
    }
    for byte in 0..=255 {
        let mut longer = right.clone();
        longer.push(byte);
        let fault = judge(Pair::InPlace, &input, &longer).unwrap_err();
        assert_eq!(fault.offset, right.len());
    }
}

#[test]
fn closing_records_behind_a_long_input_are_refused() {
    let input = [1; 60_001];
    let right = Refusal::InputTooLong.at(0).to_bytes();
    assert_eq!(judge(Pair::InPlace, &input, &right), Ok(()));
    let more = [right, still_open(1, false).to_bytes()].concat();
    assert_eq!(judge(Pair::InPlace, &input, &more).unwrap_err().offset, 7);
}

/// Whatever byte of an output is changed, the judge sees it, unless a wait then
/// names another of its blockers.
#[test]
fn every_changed_byte_is_seen() {
    let mut changes = 0;
    for index in 0..12 {
        let plan = Plan {
            profile: Profile::Small,
            index,
        };
        let input = plan.bytes(77);
        for pair in Pair::BOTH {
            let mut output = serve(pair, &input);
            for place in 0..output.len() {
                for change in [1, 2, 4, 8, 128] {
                    output[place] ^= change;
                    let passes = judge(pair, &input, &output).is_ok();
                    assert!(!passes || in_blocker(&output, place), "{place} {change}");
                    output[place] ^= change;
                    changes += 1;
                }
            }
        }
    }
    assert!(changes > 10_000, "only {changes} changes were tried");
}

fn in_blocker(output: &[u8], place: usize) -> bool {
    let mut offset = 0;
    while let Ok((answer, length)) = Answer::read(&output[offset..]) {
        if place < offset + length {
            return matches!(answer, Answer::Wait { .. }) && place >= offset + 3;
        }
        offset += length;
    }
    false
}
