//! Worked cases of the scheduler, and the example of bytes.

mod common;

use cevoluneth_model::records::{request_bytes, Refusal};
use cevoluneth_model::scheduler::{Pair, Step};
use cevoluneth_model::server::serve;
use common::*;

fn bytes(hex: &str) -> Vec<u8> {
    hex.split_whitespace()
        .map(|byte| u8::from_str_radix(byte, 16).expect("hex"))
        .collect()
}

#[test]
fn example_of_bytes() {
    let input = bytes("01 01 02 00 01 00 05 03 00 02 00 05 00 00 00 C8 04 00 02 04 00 01 06 00 02");
    let output = bytes(
        "11 00 01 11 00 02 12 00 01 00 05 00 00 00 00 13 00 02 00 05 16 00 02 00 01 \
         14 00 01 14 00 02 1A 00 05 00 00 00 C8",
    );
    for pair in Pair::BOTH {
        assert_eq!(serve(pair, &input), output, "{pair:?}");
    }
}

#[test]
fn commit_waits_for_an_earlier_reader() {
    for pair in Pair::BOTH {
        let mut s = with_open(pair, 2);
        assert_eq!(
            last(&mut s, &[r(1, 5), w(2, 5, 7), c(2)]),
            waits_for(2, &[1])
        );
        assert_eq!(s.call(again(2)), waits_for(2, &[1]));
        assert_eq!(s.call(c(1)), Step::Committed { t: 1 });
        assert_eq!(s.call(again(2)), Step::Committed { t: 2 });
        assert_eq!(s.committed()[5], 7);
    }
}

#[test]
fn reader_that_writes_behind_a_writer() {
    let mut s = with_open(Pair::InPlace, 2);
    assert_eq!(
        last(&mut s, &[r(1, 5), w(2, 5, 7), w(1, 5, 8)]),
        waits_for(1, &[2])
    );
    assert_eq!(s.call(c(2)), Step::Deadlock { t: 2 });
    assert_eq!(s.call(again(1)), Step::Written { t: 1, item: 5 });

    let mut s = with_open(Pair::Private, 2);
    assert_eq!(
        last(&mut s, &[r(1, 5), w(2, 5, 7), w(1, 5, 8)]),
        Step::Written { t: 1, item: 5 }
    );
    assert_eq!(s.call(c(2)), waits_for(2, &[1]));
    assert_eq!(s.call(c(1)), Step::Committed { t: 1 });
    assert_eq!(s.call(again(2)), Step::Committed { t: 2 });
    assert_eq!(s.committed()[5], 7);
}

#[test]
fn two_readers_of_each_others_writes() {
    for pair in Pair::BOTH {
        let mut s = with_open(pair, 2);
        assert_eq!(
            last(&mut s, &[w(1, 3, 1), w(2, 4, 2), r(1, 4)]),
            waits_for(1, &[2])
        );
        assert_eq!(s.call(r(2, 3)), Step::Deadlock { t: 2 });
        assert_eq!(s.call(c(2)), refused(Refusal::NotOpen));
        let value = Step::Value {
            t: 1,
            item: 4,
            value: 0,
        };
        assert_eq!(s.call(again(1)), value);
    }
}

#[test]
fn two_commits_that_wait_for_each_others_reads() {
    let mut s = with_open(Pair::InPlace, 2);
    let calls = [r(1, 5), w(2, 5, 1), r(2, 6), w(1, 6, 2), c(1)];
    assert_eq!(last(&mut s, &calls), waits_for(1, &[2]));
    assert_eq!(s.call(c(2)), Step::Deadlock { t: 2 });
    assert_eq!(s.call(again(1)), Step::Committed { t: 1 });
    assert_eq!((s.committed()[5], s.committed()[6]), (0, 2));
}

#[test]
fn own_value_is_read() {
    for pair in Pair::BOTH {
        let mut s = with_open(pair, 1);
        let own = Step::Value {
            t: 1,
            item: 5,
            value: -9,
        };
        assert_eq!(last(&mut s, &[w(1, 5, -9), r(1, 5)]), own);
        assert_eq!(s.lock_count(), 1);
    }
}

#[test]
fn own_value_is_read_beside_another_write() {
    let mut s = with_open(Pair::Private, 2);
    let own = Step::Value {
        t: 1,
        item: 5,
        value: 1,
    };
    assert_eq!(last(&mut s, &[w(1, 5, 1), w(2, 5, 2), r(1, 5)]), own);
}

#[test]
fn second_read_waits_for_a_writer() {
    for pair in Pair::BOTH {
        let mut s = with_open(pair, 2);
        assert_eq!(
            last(&mut s, &[r(1, 5), w(2, 5, 7), r(1, 5)]),
            waits_for(1, &[2])
        );
    }
}

#[test]
fn later_commit_overwrites() {
    let mut s = with_open(Pair::Private, 2);
    let calls = [w(1, 5, 1), w(2, 5, 2), c(2), c(1)];
    assert_eq!(last(&mut s, &calls), Step::Committed { t: 1 });
    assert_eq!(s.committed()[5], 1);
}

#[test]
fn aborted_writes_are_undone() {
    for pair in Pair::BOTH {
        let mut s = with_open(pair, 1);
        assert_eq!(
            last(&mut s, &[w(1, 5, 7), w(1, 5, 9), a(1)]),
            Step::Aborted { t: 1 }
        );
        assert_eq!(s.committed()[5], 0);
        let requests = [B, w(1, 5, 7), w(1, 5, 9), a(1)];
        let output = serve(pair, &request_bytes(&requests));
        assert_eq!(
            output,
            bytes("11 00 01 13 00 01 00 05 13 00 01 00 05 15 00 01")
        );
    }
}

#[test]
fn waits_name_all_blockers() {
    for pair in Pair::BOTH {
        let mut s = with_open(pair, 4);
        let calls = [r(1, 5), r(3, 6), r(4, 5), w(2, 5, 7), w(2, 6, 7), c(2)];
        assert_eq!(last(&mut s, &calls), waits_for(2, &[1, 3, 4]));
    }
}

#[test]
fn chains_of_every_length_close_into_a_deadlock() {
    for pair in Pair::BOTH {
        for length in 2..=64 {
            let mut s = with_open(pair, length);
            for t in 1..=length {
                assert_eq!(s.call(w(t, t, 1)), Step::Written { t, item: t });
            }
            for t in 1..length {
                assert_eq!(s.call(r(t, t + 1)), waits_for(t, &[t + 1]));
            }
            assert_eq!(s.call(r(length, 1)), Step::Deadlock { t: length });
        }
    }
}

#[test]
fn requests_in_every_state() {
    for pair in Pair::BOTH {
        let mut s = with_open(pair, 2);
        assert_eq!(s.call(again(1)), refused(Refusal::NotWaiting));
        assert_eq!(
            last(&mut s, &[r(1, 5), w(2, 5, 1), c(2)]),
            waits_for(2, &[1])
        );
        for call in [r(2, 5), w(2, 5, 2), c(2), r(2, 1_024)] {
            assert_eq!(s.call(call), refused(Refusal::Waiting), "{call:?}");
        }
        assert_eq!(s.call(a(2)), Step::Aborted { t: 2 });
        for call in [r(2, 2_000), w(2, 5, 2), c(2), a(2), again(2), again(0)] {
            assert_eq!(s.call(call), refused(Refusal::NotOpen), "{call:?}");
        }
    }
}

/// A lane adds a game to a total while the counter adds a handicap to it.
#[test]
fn lost_game() {
    let value = |t, value| Step::Value { t, item: 5, value };
    let start = [r(1, 5), w(2, 5, 185), c(2)];

    let mut s = with_open(Pair::InPlace, 2);
    assert_eq!(last(&mut s, &start), waits_for(2, &[1]));
    assert_eq!(s.call(w(1, 5, 24)), Step::Deadlock { t: 1 });
    assert_eq!(s.call(c(1)), refused(Refusal::NotOpen));
    assert_eq!(s.call(again(2)), Step::Committed { t: 2 });
    assert_eq!(s.call(B), Step::Opened { t: 3 });
    assert_eq!(s.call(r(3, 5)), value(3, 185));
    assert_eq!(
        last(&mut s, &[w(3, 5, 209), c(3)]),
        Step::Committed { t: 3 }
    );
    assert_eq!(s.committed()[5], 209);

    let mut s = with_open(Pair::Private, 2);
    assert_eq!(last(&mut s, &start), waits_for(2, &[1]));
    assert_eq!(
        last(&mut s, &[w(1, 5, 24), c(1), again(2)]),
        Step::Committed { t: 2 }
    );
    assert_eq!(s.committed()[5], 185);
}

/// Nobody is remembered as a blocker: the one who has the item now counts.
#[test]
fn blockers_are_those_of_now() {
    for pair in Pair::BOTH {
        let mut s = with_open(pair, 3);
        assert_eq!(last(&mut s, &[w(1, 5, 1), r(2, 5)]), waits_for(2, &[1]));
        assert_eq!(
            last(&mut s, &[a(1), w(3, 5, 3)]),
            Step::Written { t: 3, item: 5 }
        );
        assert_eq!(s.call(again(2)), waits_for(2, &[3]));
        assert_eq!(last(&mut s, &[c(3)]), Step::Committed { t: 3 });
        let value = Step::Value {
            t: 2,
            item: 5,
            value: 3,
        };
        assert_eq!(s.call(again(2)), value);
    }
}

/// A chain through a transaction that got its write after the wait began.
#[test]
fn chains_lead_over_new_blockers() {
    let mut s = with_open(Pair::Private, 3);
    let calls = [w(1, 5, 1), w(2, 6, 1), r(2, 5), w(3, 5, 3), r(3, 6)];
    assert_eq!(last(&mut s, &calls), Step::Deadlock { t: 3 });
    assert_eq!(s.call(again(2)), waits_for(2, &[1]));
}
