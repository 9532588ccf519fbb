//! Each workload leans on what its name says.

use cevoluneth_bench::records::INPUT_LIMIT;
use cevoluneth_bench::server::serve;
use cevoluneth_bench::store::{Beside, InPlace, Store};
use cevoluneth_bench::workloads::{self, Workload};

/// How often each answer kind came, and each refusal.
struct Counts {
    answers: [usize; 27],
    refusals: [usize; 12],
}

fn counts<S: Store>(input: &Workload) -> Counts {
    let output = serve::<S>(&input.bytes);
    let mut counts = Counts {
        answers: [0; 27],
        refusals: [0; 12],
    };
    let mut rest = &output[..];
    while let [kind, body @ ..] = rest {
        let length = match kind {
            18 => 8,
            24 | 26 => 6,
            19 | 22 => 4,
            25 => 3,
            _ => 2,
        };
        counts.answers[usize::from(*kind)] += 1;
        if *kind == 24 {
            counts.refusals[usize::from(body[1])] += 1;
        }
        rest = &body[length..];
    }
    counts
}

fn named<'a>(all: &'a [Workload], name: &str) -> &'a Workload {
    all.iter().find(|input| input.name == name).unwrap()
}

fn check<S: Store>() {
    let all = workloads::all::<S>(1);
    let of = |name| {
        let input = named(&all, name);
        (input.requests, counts::<S>(input))
    };
    let (requests, calm) = of("begins and aborts");
    assert_eq!(calm.answers[17] + calm.answers[21], requests);
    let (_, short) = of("short transactions");
    assert!(short.answers[20] > 1000);
    let (requests, hot) = of("hot items");
    assert!(hot.answers[22] > requests / 2);
    let (_, long) = of("long lock list");
    assert!(long.refusals[10] > 500 && long.answers[22] == 0);
    let (requests, chains) = of("chains of waits");
    assert!(chains.answers[22] > requests * 4 / 5 && chains.answers[23] > 100);
    let (_, commits) = of("commits behind readers");
    assert!(commits.answers[22] > 1000 && commits.answers[23] == 0);
    let (_, full) = of("full room");
    assert!(full.refusals[11] > 500);
    let (requests, unknown) = of("unknown transactions");
    assert_eq!(unknown.refusals[4] + 64, requests);
}

#[test]
fn in_place() {
    check::<InPlace>();
}

#[test]
fn beside() {
    check::<Beside>();
}

#[test]
fn a_seed_gives_the_same_inputs_again() {
    let (first, again) = (workloads::all::<InPlace>(7), workloads::all::<InPlace>(7));
    for (one, other) in first.iter().zip(&again).skip(1) {
        assert_eq!(one.bytes, other.bytes, "{}", one.name);
        assert!(one.bytes.len() <= INPUT_LIMIT && one.bytes.len() > INPUT_LIMIT - 9);
    }
    assert!(first[0].bytes.is_empty());
    assert_ne!(first[1].bytes, workloads::all::<InPlace>(8)[1].bytes);
}
