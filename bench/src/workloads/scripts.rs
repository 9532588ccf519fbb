//! Inputs that each lean on one part of a server.

use super::maker::Maker;
use crate::records::Request;
use crate::slots::OPEN;
use crate::store::{ITEMS, SHARE, Store};

/// Up to 64 open, which ask for nothing.
pub fn begins_and_aborts<S: Store>(maker: &mut Maker<S>) {
    let mut open = Vec::new();
    while !maker.is_full() {
        if open.is_empty() || open.len() < OPEN && maker.below(2) == 0 {
            open.push(maker.begin());
        } else {
            let t = open.swap_remove(maker.pick(open.len()));
            let _ = maker.ask(Request::Abort { t });
        }
    }
}

/// 32 transactions fill the lock list, 48 read locks and 16 write locks each, and go on to read and write what they
/// have locked; one read in eight is of an item without a lock, and refused.
pub fn long_list<S: Store>(maker: &mut Maker<S>) {
    let open: Vec<u16> = (0..32).map(|_| maker.begin()).collect();
    let shared = |n: u16, k: u16| (n * 16 + k) % 512;
    let own = |n: u16, k: u16| 512 + n * 16 + k;
    for k in 0..48 {
        for (n, &t) in (0..).zip(&open) {
            maker.read(t, shared(n, k));
        }
    }
    for k in 0..16 {
        for (n, &t) in (0..).zip(&open) {
            maker.write(t, own(n, k));
        }
    }
    while !maker.is_full() {
        let n = maker.below(open.len() as u16);
        let k = maker.below(16);
        let t = open[usize::from(n)];
        match maker.below(8) {
            0 => maker.read(t, shared(n, 48 + k)),
            third @ 1..4 => maker.read(t, shared(n, 16 * (third - 1) + k)),
            _ => maker.write(t, own(n, k)),
        }
    }
}

/// 64 transactions write an item each, and each waits to read that of the next. All but the last retry at random;
/// now and then the last asks for the first one's item, which closes the chain, and a new one takes its place.
pub fn chains<S: Store>(maker: &mut Maker<S>) {
    let mut open: Vec<u16> = (0..OPEN).map(|_| maker.begin()).collect();
    let last = open.len() - 1;
    for (item, &t) in (0..).zip(&open) {
        maker.write(t, item);
    }
    for (item, &t) in (1..).zip(&open[..last]) {
        maker.read(t, item);
    }
    while !maker.is_full() {
        for _ in 0..32 {
            let t = open[maker.pick(last)];
            let _ = maker.ask(Request::Retry { t });
        }
        maker.read(open[last], 0);
        open[last] = maker.begin();
        maker.write(open[last], last as u16);
    }
}

/// 63 transactions read four items each, which one then writes. It commits, waits, and retries after each of the
/// others has ended.
pub fn commits_behind_readers<S: Store>(maker: &mut Maker<S>) {
    while !maker.is_full() {
        let readers: Vec<u16> = (1..OPEN).map(|_| maker.begin()).collect();
        let first = maker.below(ITEMS as u16 - 8);
        for &t in &readers {
            for k in 0..4 {
                maker.read(t, first + (t + k) % 8);
            }
        }
        let writer = maker.begin();
        for k in 0..8 {
            maker.write(writer, first + k);
        }
        let _ = maker.ask(Request::Commit { t: writer });
        for t in readers {
            let _ = maker.ask(Request::Commit { t });
            let _ = maker.ask(Request::Retry { t: writer });
        }
    }
}

/// Eight transactions have 64 writes pending each. They write these anew, read them, and ask for more; now and then one
/// of them commits, and another fills the room again.
pub fn full_room<S: Store>(maker: &mut Maker<S>) {
    let share = SHARE as u16;
    let mut open: Vec<u16> = (0..8).map(|_| maker.begin()).collect();
    let fill = |maker: &mut Maker<S>, n: u16, t: u16| {
        for k in 0..share {
            maker.write(t, n * share + k);
        }
    };
    for (n, &t) in (0..).zip(&open) {
        fill(maker, n, t);
    }
    while !maker.is_full() {
        for _ in 0..512 {
            let n = maker.below(8);
            let item = n * share + maker.below(share);
            let t = open[usize::from(n)];
            match maker.below(4) {
                0 => maker.read(t, item),
                1 => maker.write(t, 512 + item),
                _ => maker.write(t, item),
            }
        }
        let n = maker.below(8);
        let t = &mut open[usize::from(n)];
        let _ = maker.ask(Request::Commit { t: *t });
        *t = maker.begin();
        fill(maker, n, *t);
    }
}

/// 64 are open, and every request is of another.
pub fn unknown_transactions<S: Store>(maker: &mut Maker<S>) {
    for _ in 0..OPEN {
        maker.begin();
    }
    while !maker.is_full() {
        let t = OPEN as u16 + 1 + maker.below(1000);
        let request = any_request(maker, t);
        let _ = maker.ask(request);
    }
}

/// Requests of every kind, by transactions around the newest.
pub fn random_requests<S: Store>(maker: &mut Maker<S>) {
    let mut newest = 1;
    while !maker.is_full() {
        if maker.below(5) == 0 && maker.ask(Request::Begin).is_ok() {
            newest += 1;
        }
        let t = newest - maker.below(newest.min(100));
        let request = any_request(maker, t);
        let _ = maker.ask(request);
    }
}

fn any_request<S: Store>(maker: &mut Maker<S>, t: u16) -> Request {
    let item = maker.below(64);
    match maker.below(10) {
        0..4 => Request::Read { t, item },
        4..7 => Request::Write {
            t,
            item,
            value: maker.value(),
        },
        7 => Request::Commit { t },
        8 => Request::Abort { t },
        _ => Request::Retry { t },
    }
}
