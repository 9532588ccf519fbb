//! The laws take good runs, and each refuses the runs that break it.

mod common;

use cevoluneth_model::files::{Plan, Profile};
use cevoluneth_model::laws::{check, check_bytes, Law, Run};
use cevoluneth_model::records::{Answer, Refusal, Request};
use cevoluneth_model::scheduler::Pair;
use cevoluneth_model::server::serve;
use common::*;

type Steps<'a> = &'a [(Request, Answer)];

/// The broken law and the number of the answer, behind the begins of 1 and 2.
fn broken(pair: Pair, steps: Steps, values: &[(u16, i32)]) -> Option<(Law, usize)> {
    let mut all = vec![(B, opened(1)), (B, opened(2))];
    all.extend(steps);
    let run = Run {
        steps: all,
        values: values.to_vec(),
    };
    check(pair, &run)
        .err()
        .map(|breach| (breach.law, breach.answer.saturating_sub(2)))
}

fn broken_in_both(steps: Steps, values: &[(u16, i32)]) -> Option<(Law, usize)> {
    let in_place = broken(Pair::InPlace, steps, values);
    assert_eq!(in_place, broken(Pair::Private, steps, values));
    in_place
}

#[test]
fn a_good_run_passes() {
    let steps = [
        (r(1, 5), value(1, 5, 0)),
        (w(2, 5, 9), written(2, 5)),
        (r(2, 5), value(2, 5, 9)),
        (c(2), wait(2, 1)),
        (r(2, 6), Refusal::Waiting.at(40)),
        (again(2), wait(2, 1)),
        (c(1), committed(1)),
        (again(2), committed(2)),
        (B, opened(3)),
        (r(3, 5), value(3, 5, 9)),
        (w(3, 5, 0), written(3, 5)),
        (a(3), aborted(3)),
    ];
    assert_eq!(broken_in_both(&steps, &[(5, 9)]), None);
}

#[test]
fn reads_of_a_lost_update() {
    let steps = [
        (r(1, 5), value(1, 5, 0)),
        (w(2, 5, 9), written(2, 5)),
        (c(2), committed(2)),
        (c(1), committed(1)),
    ];
    assert_eq!(
        broken_in_both(&steps, &[(5, 9)]),
        Some((Law::SerialReads, 3))
    );
}

#[test]
fn reads_of_something_else_than_the_own_value() {
    for wrong in [0, 6, 8] {
        let steps = [
            (w(1, 5, 6), written(1, 5)),
            (w(1, 5, 7), written(1, 5)),
            (r(1, 5), value(1, 5, wrong)),
            (c(1), committed(1)),
        ];
        assert_eq!(
            broken_in_both(&steps, &[(5, 7)]),
            Some((Law::SerialReads, 3))
        );
    }
}

#[test]
fn reads_of_an_aborted_value() {
    let steps = [
        (w(1, 5, 6), written(1, 5)),
        (a(1), aborted(1)),
        (r(2, 5), value(2, 5, 6)),
        (c(2), committed(2)),
    ];
    assert_eq!(broken_in_both(&steps, &[]), Some((Law::SerialReads, 3)));
}

#[test]
fn reads_of_the_aborted_do_not_count() {
    let steps = [(r(1, 5), value(1, 5, 77)), (a(1), aborted(1))];
    assert_eq!(broken_in_both(&steps, &[]), None);
}

#[test]
fn final_values() {
    let steps = [
        (w(1, 5, 7), written(1, 5)),
        (w(1, 6, 1), written(1, 6)),
        (c(1), committed(1)),
        (w(2, 6, 0), written(2, 6)),
        (c(2), committed(2)),
    ];
    assert_eq!(broken_in_both(&steps, &[(5, 7)]), None);
    let wrong: [&[(u16, i32)]; 6] = [
        &[],
        &[(5, 8)],
        &[(5, 7), (6, 1)],
        &[(5, 7), (6, 0)],
        &[(5, 7), (5, 7)],
        &[(5, 7), (8, 2)],
    ];
    for values in wrong {
        assert_eq!(
            broken_in_both(&steps, values),
            Some((Law::SerialValues, 5)),
            "{values:?}"
        );
    }
}

#[test]
fn final_values_of_aborted_and_open_ones() {
    let steps = [
        (w(1, 5, 7), written(1, 5)),
        (a(1), aborted(1)),
        (w(2, 6, 8), written(2, 6)),
    ];
    assert_eq!(broken_in_both(&steps, &[]), None);
    for values in [[(5, 7)], [(6, 8)]] {
        assert_eq!(
            broken_in_both(&steps, &values),
            Some((Law::SerialValues, 3))
        );
    }
}

#[test]
fn a_held_write_counts_when_it_is_granted() {
    let steps = [
        (w(1, 5, 7), written(1, 5)),
        (w(2, 5, 8), wait(2, 1)),
        (c(1), committed(1)),
        (again(2), written(2, 5)),
        (c(2), committed(2)),
    ];
    assert_eq!(broken(Pair::InPlace, &steps, &[(5, 8)]), None);
    assert_eq!(
        broken(Pair::InPlace, &steps, &[(5, 7)]),
        Some((Law::SerialValues, 5))
    );
}

#[test]
fn strict_reads() {
    let steps = [(w(1, 5, 0), written(1, 5)), (r(2, 5), value(2, 5, 0))];
    assert_eq!(
        broken(Pair::InPlace, &steps, &[]),
        Some((Law::Strict, 1)),
        "a value that is not committed was read"
    );
}

#[test]
fn strict_writes() {
    let steps = [
        (w(1, 5, 3), written(1, 5)),
        (w(2, 5, 4), written(2, 5)),
        (c(1), committed(1)),
        (c(2), committed(2)),
    ];
    assert_eq!(
        broken(Pair::InPlace, &steps, &[(5, 4)]),
        Some((Law::Strict, 1))
    );
    assert_eq!(broken(Pair::Private, &steps, &[(5, 4)]), None);
}

#[test]
fn strict_ends_with_the_writer() {
    let steps = [
        (w(1, 5, 3), written(1, 5)),
        (a(1), aborted(1)),
        (w(2, 5, 4), written(2, 5)),
        (c(2), committed(2)),
    ];
    assert_eq!(broken_in_both(&steps, &[(5, 4)]), None);
}

#[test]
fn commits_in_the_order_of_a_read_and_a_write() {
    // The values are all 0, so the serial run sees nothing.
    let steps = [
        (r(1, 5), value(1, 5, 0)),
        (w(2, 5, 0), written(2, 5)),
        (c(2), committed(2)),
        (c(1), committed(1)),
    ];
    // A deferred write takes place at the commit.
    let in_place = broken(Pair::InPlace, &steps, &[]);
    assert_eq!(in_place, Some((Law::CommitOrdered, 1)));
    let deferred = broken(Pair::Private, &steps, &[]);
    assert_eq!(deferred, Some((Law::CommitOrdered, 2)));
    let uncommitted = &steps[..3];
    assert_eq!(broken_in_both(uncommitted, &[]), None);
}

#[test]
fn commits_in_the_order_of_deferred_writes() {
    let steps = [
        (w(1, 5, 1), written(1, 5)),
        (w(2, 5, 2), written(2, 5)),
        (c(2), committed(2)),
        (c(1), committed(1)),
    ];
    assert_eq!(broken(Pair::Private, &steps, &[(5, 1)]), None);
}

#[test]
fn two_readers_may_commit_in_any_order() {
    let steps = [
        (r(1, 5), value(1, 5, 0)),
        (r(2, 5), value(2, 5, 0)),
        (c(2), committed(2)),
        (c(1), committed(1)),
    ];
    assert_eq!(broken_in_both(&steps, &[]), None);
}

#[test]
fn all_wait_to_read() {
    let steps = [
        (w(1, 3, 1), written(1, 3)),
        (w(2, 4, 2), written(2, 4)),
        (r(1, 4), wait(1, 2)),
        (r(2, 3), wait(2, 1)),
    ];
    assert_eq!(broken_in_both(&steps, &[]), Some((Law::SomeoneCanGoOn, 3)));
    assert_eq!(broken_in_both(&steps[..3], &[]), None);
}

#[test]
fn all_wait_to_commit() {
    let steps = [
        (r(1, 5), value(1, 5, 0)),
        (r(2, 6), value(2, 6, 0)),
        (w(2, 5, 1), written(2, 5)),
        (w(1, 6, 2), written(1, 6)),
        (c(1), wait(1, 2)),
        (c(2), wait(2, 1)),
    ];
    assert_eq!(broken_in_both(&steps, &[]), Some((Law::SomeoneCanGoOn, 5)));
}

#[test]
fn all_wait_once_the_third_is_gone() {
    let steps = [
        (B, opened(3)),
        (r(1, 5), value(1, 5, 0)),
        (w(2, 5, 1), written(2, 5)),
        (c(2), wait(2, 1)),
        (r(1, 5), wait(1, 2)),
        (r(3, 9), value(3, 9, 0)),
        (c(3), committed(3)),
    ];
    assert_eq!(broken_in_both(&steps, &[]), Some((Law::SomeoneCanGoOn, 6)));
}

#[test]
fn a_write_waits_for_a_writer_in_place_only() {
    let steps = [
        (w(1, 5, 1), written(1, 5)),
        (w(2, 6, 1), written(2, 6)),
        (w(1, 6, 1), wait(1, 2)),
        (w(2, 5, 1), wait(2, 1)),
    ];
    assert_eq!(
        broken(Pair::InPlace, &steps, &[]),
        Some((Law::SomeoneCanGoOn, 3))
    );
    assert_eq!(broken(Pair::Private, &steps, &[]), None);
}

#[test]
fn waiting_for_one_who_is_gone_is_waiting_for_nobody() {
    let steps = [
        (w(1, 3, 1), written(1, 3)),
        (r(2, 3), wait(2, 1)),
        (a(1), aborted(1)),
        (again(2), Refusal::LockListFull.at(30)),
    ];
    assert_eq!(broken_in_both(&steps, &[]), None);
}

#[test]
fn answers_that_do_not_fit() {
    let wrong = [
        (r(1, 5), value(1, 6, 0)),
        (r(1, 5), value(2, 5, 0)),
        (r(1, 5), written(1, 5)),
        (w(1, 5, 1), value(1, 5, 1)),
        (c(1), aborted(1)),
        (a(1), committed(1)),
        (a(1), deadlock(1)),
        (a(1), wait(1, 2)),
        (B, opened(2)),
        (B, committed(1)),
        (again(1), committed(1)),
        (r(3, 5), value(3, 5, 0)),
    ];
    for step in wrong {
        assert_eq!(
            broken_in_both(&[step], &[]),
            Some((Law::Fits, 0)),
            "{step:?}"
        );
    }
}

#[test]
fn a_write_before_a_read_of_one_who_commits_first() {
    let steps = [
        (w(1, 5, 0), written(1, 5)),
        (r(2, 5), value(2, 5, 0)),
        (c(2), committed(2)),
        (c(1), committed(1)),
    ];
    assert_eq!(broken(Pair::InPlace, &steps, &[]), Some((Law::Strict, 1)));
    // The private store has made no write yet, so nothing is out of order.
    assert_eq!(broken(Pair::Private, &steps, &[]), None);
}

#[test]
fn numbers_are_not_used_again() {
    let steps = [(a(2), aborted(2)), (B, opened(2))];
    assert_eq!(broken_in_both(&steps, &[]), Some((Law::Fits, 1)));
    let steps = [(a(2), aborted(2)), (B, opened(3))];
    assert_eq!(broken_in_both(&steps, &[]), None);
}

#[test]
fn bytes_are_decoded() {
    let input = [1, 3, 0, 1, 0, 5, 0, 0, 0, 9, 4, 0, 1, 99];
    let output = serve(Pair::InPlace, &input);
    let law = |output: &[u8]| {
        let result = check_bytes(Pair::InPlace, &input, output);
        result.err().map(|breach| (breach.law, breach.answer))
    };
    assert_eq!(law(&output), None);
    assert_eq!(law(&output[..8]), Some((Law::Fits, 2)));
    assert_eq!(law(&output[..10]), Some((Law::Fits, 2)));
    let without_value = &output[..output.len() - 7];
    assert_eq!(law(without_value), Some((Law::SerialValues, 3)));
    let one_more = [&output[..], &committed(1).to_bytes()].concat();
    assert_eq!(law(&one_more), Some((Law::Fits, 3)));
}

#[test]
fn the_rule_of_the_other_pair_is_seen() {
    let plan = Plan {
        profile: Profile::Hot,
        index: 3,
    };
    let input = plan.bytes(5);
    let output = serve(Pair::Private, &input);
    assert_eq!(check_bytes(Pair::Private, &input, &output), Ok(()));
    let breach = check_bytes(Pair::InPlace, &input, &output).unwrap_err();
    assert_eq!(breach.law, Law::Strict);
}
