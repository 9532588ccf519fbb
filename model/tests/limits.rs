//! The limits of the scheduler, the stores and the servers.

mod common;

use cevoluneth_model::records::Refusal;
use cevoluneth_model::scheduler::{Pair, Scheduler, Step};
use cevoluneth_model::server::serve;
use common::*;

#[test]
fn sixty_four_open() {
    for pair in Pair::BOTH {
        let mut s = with_open(pair, 64);
        assert_eq!(s.call(B), refused(Refusal::TooManyOpen));
        assert_eq!(s.call(a(17)), Step::Aborted { t: 17 });
        assert_eq!(s.call(B), Step::Opened { t: 65 });
        assert_eq!(s.call(B), refused(Refusal::TooManyOpen));
    }
}

#[test]
fn sixty_thousand_begins() {
    for pair in Pair::BOTH {
        let mut s = Scheduler::new(pair);
        for t in 1..=60_000 {
            assert_eq!(s.call(B), Step::Opened { t });
            if t < 60_000 {
                s.call(a(t));
            }
        }
        assert_eq!(s.call(B), refused(Refusal::NumbersSpent));
        assert_eq!(s.call(c(60_000)), Step::Committed { t: 60_000 });
        assert_eq!(s.call(B), refused(Refusal::NumbersSpent));
    }
}

#[test]
fn items_end_at_1023() {
    for pair in Pair::BOTH {
        let mut s = with_open(pair, 1);
        assert!(matches!(s.call(r(1, 1_023)), Step::Value { value: 0, .. }));
        for call in [r(1, 1_024), w(1, 1_024, 1), r(1, 65_535), w(1, 65_535, 1)] {
            assert_eq!(s.call(call), refused(Refusal::NoSuchItem));
        }
        assert_eq!(s.call(r(2, 1_024)), refused(Refusal::NotOpen));
        assert_eq!((s.lock_count(), s.pending_count()), (1, 0));
    }
}

/// Transactions 1 and 2 read all items, so the list is full.
fn full_list(pair: Pair) -> Scheduler {
    let mut s = with_open(pair, 5);
    assert_eq!(s.call(w(3, 0, 1)), Step::Written { t: 3, item: 0 });
    assert_eq!(s.call(r(4, 0)), waits_for(4, &[3]));
    assert_eq!(s.call(c(3)), Step::Committed { t: 3 });
    for t in [1, 2] {
        for item in 0..1_024 {
            assert!(matches!(s.call(r(t, item)), Step::Value { .. }));
        }
    }
    s
}

#[test]
fn lock_list_full() {
    for pair in Pair::BOTH {
        let mut s = full_list(pair);
        assert_eq!(s.lock_count(), 2_048);
        for call in [r(5, 9), w(5, 9, 1), w(1, 9, 1), again(4)] {
            assert_eq!(s.call(call), refused(Refusal::LockListFull), "{call:?}");
        }
        assert!(matches!(s.call(r(1, 9)), Step::Value { .. }));
        assert_eq!(s.call(r(4, 9)), refused(Refusal::Waiting));
        s.call(a(1));
        let value = Step::Value {
            t: 4,
            item: 0,
            value: 1,
        };
        assert_eq!(s.call(again(4)), value);
    }
}

#[test]
fn share_of_the_private_store() {
    let mut s = with_open(Pair::Private, 2);
    for item in 0..64 {
        assert_eq!(s.call(w(1, item, 1)), Step::Written { t: 1, item });
    }
    assert_eq!(s.call(w(1, 64, 1)), refused(Refusal::NoRoom));
    assert_eq!(s.lock_count(), 64);
    assert_eq!(s.call(w(1, 0, 2)), Step::Written { t: 1, item: 0 });
    assert_eq!(s.call(w(2, 64, 1)), Step::Written { t: 2, item: 64 });
}

#[test]
fn room_of_the_private_store() {
    let mut s = with_open(Pair::Private, 9);
    for t in 1..=8 {
        for item in 0..64 {
            assert_eq!(s.call(w(t, item, 1)), Step::Written { t, item });
        }
    }
    assert_eq!(s.call(w(9, 0, 1)), refused(Refusal::NoRoom));
    assert_eq!(s.call(c(1)), Step::Committed { t: 1 });
    assert_eq!(s.call(w(9, 0, 1)), Step::Written { t: 9, item: 0 });
}

#[test]
fn room_of_the_store_in_place() {
    let mut s = with_open(Pair::InPlace, 3);
    assert_eq!(s.call(w(2, 600, 1)), Step::Written { t: 2, item: 600 });
    assert_eq!(s.call(w(3, 600, 1)), waits_for(3, &[2]));
    for item in 0..511 {
        assert_eq!(s.call(w(1, item, 1)), Step::Written { t: 1, item });
    }
    assert_eq!(s.call(w(1, 511, 1)), refused(Refusal::NoRoom));
    s.call(a(2));
    assert_eq!(s.call(w(1, 511, 1)), Step::Written { t: 1, item: 511 });
    assert_eq!(s.call(again(3)), refused(Refusal::NoRoom));
    assert_eq!(s.call(r(3, 7)), refused(Refusal::Waiting));
    assert_eq!(s.call(w(1, 0, 5)), Step::Written { t: 1, item: 0 });
    s.call(c(1));
    assert_eq!(s.call(again(3)), Step::Written { t: 3, item: 600 });
}

#[test]
fn lock_list_is_asked_before_the_room() {
    let mut s = full_list(Pair::Private);
    for t in [1, 2] {
        s.call(a(t));
    }
    for item in 0..64 {
        s.call(w(5, item, 1));
    }
    let begun = with_readers(&mut s);
    assert_eq!(s.lock_count(), 2_048);
    assert_eq!(s.call(w(5, 64, 1)), refused(Refusal::LockListFull));
    s.call(a(begun));
    assert_eq!(s.call(w(5, 64, 1)), refused(Refusal::NoRoom));
}

/// Opens transactions that fill the lock list, and gives the last of them.
fn with_readers(s: &mut Scheduler) -> u16 {
    loop {
        let Step::Opened { t } = s.call(B) else {
            panic!("too many are needed");
        };
        for item in 100..1_024 {
            if s.call(r(t, item)) == refused(Refusal::LockListFull) {
                return t;
            }
        }
    }
}

#[test]
fn lengths_of_the_input() {
    for pair in Pair::BOTH {
        let whole = serve(pair, &[1; 60_000]);
        assert_eq!(whole.len(), 64 * 3 + (60_000 - 64) * 7 + 64 * 4);
        assert_eq!(serve(pair, &[1; 60_001]), [24, 1, 3, 0, 0, 0, 0]);
        assert_eq!(serve(pair, &[]), []);
    }
}

#[test]
fn reading_stops_at_the_first_refusal() {
    for pair in Pair::BOTH {
        let opened = [17, 0, 1];
        let open = [25, 0, 1, 0];
        let unknown = serve(pair, &[1, 0, 1, 1]);
        assert_eq!(
            unknown,
            [&opened[..], &[24, 1, 1, 0, 0, 0, 1], &open].concat()
        );
        let cut = serve(pair, &[1, 3, 0, 1, 0, 5, 0, 0, 0]);
        assert_eq!(cut, [&opened[..], &[24, 1, 2, 0, 0, 0, 1], &open].concat());
    }
}
