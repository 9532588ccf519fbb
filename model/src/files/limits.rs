//! Files that press against the limits of the scheduler and the store.

use super::author::{Author, Mix};
use crate::records::Request;
use crate::scheduler::{Step, ITEMS, LOCK_LIMIT, OPEN_LIMIT, ROOM};

/// Items below this one are kept free for the waits of these files.
const FIRST_FILLER: usize = 16;

/// The lock list fills up to its last place, and one who waits comes too late.
/// In every other round the room for pending writes is full as well.
pub fn lock_list(author: &mut Author) {
    while author.room() > 16_000 {
        let count = author.rng.between(30, OPEN_LIMIT);
        let members = author.begin_many(count);
        let [writer, reader, ..] = members[..] else {
            return;
        };
        author.write(writer, 3);
        author.read(reader, 3);
        let mut lowest = FIRST_FILLER;
        if author.rng.percent(50) {
            fill_room(author, &members[2..], 0);
            lowest += ROOM;
        }
        fill_locks(author, lowest);
        press(author);
        author.commit(writer);
        fill_locks(author, lowest);
        author.retry(reader);
        press(author);
        let other = author.rng.pick(&members);
        author.abort(other);
        author.retry(reader);
        author.drain();
    }
    author.drain();
}

/// Reads of items from `lowest` on, until the list is full.
fn fill_locks(author: &mut Author, lowest: usize) {
    for _ in 0..4 * LOCK_LIMIT {
        let active = author.active();
        if author.model().lock_count() == LOCK_LIMIT || active.is_empty() {
            return;
        }
        let item = author.rng.between(lowest, ITEMS - 1) as u16;
        let t = author.rng.pick(&active);
        if author.read(t, item).is_none() {
            return;
        }
    }
}

/// Requests at a full list: new items, own items once more, and writes of what
/// was read.
fn press(author: &mut Author) {
    for _ in 0..30 {
        let open = author.open();
        if open.is_empty() {
            return;
        }
        let t = author.rng.pick(&open);
        let item = author.rng.below(ITEMS) as u16;
        match author.rng.below(5) {
            0 | 1 => author.read(t, item),
            2 | 3 => author.write(t, item),
            _ => author.retry(t),
        };
    }
}

/// The room for pending writes fills up, as do the shares.
pub fn room(author: &mut Author) {
    while author.room() > 8_000 {
        let count = author.rng.pick(&[3, 8, 9, 12, 20]);
        let members = author.begin_many(count);
        let [first, second, ..] = members[..] else {
            return;
        };
        author.write(first, 3);
        author.write(second, 3);
        let start = author.rng.below(ITEMS);
        fill_room(author, &members[1..], start);
        rewrite(author, &members);
        author.abort(first);
        fill_room(author, &members[1..], start + ITEMS / 2);
        author.retry(second);
        let other = author.rng.pick(&members);
        author.abort(other);
        author.retry(second);
        author.drain();
    }
    author.drain();
}

/// Each of `members` writes new items until it is refused.
fn fill_room(author: &mut Author, members: &[u16], start: usize) {
    let span = ITEMS - FIRST_FILLER;
    let mut offset = start;
    for &t in members {
        while !author.waits(t) {
            let item = FIRST_FILLER + offset % span;
            offset += 1;
            match author.write(t, item as u16) {
                Some(Step::Written { .. }) if offset < start + 2 * span => {}
                _ => break,
            }
        }
    }
}

fn rewrite(author: &mut Author, members: &[u16]) {
    for _ in 0..20 {
        let t = author.rng.pick(members);
        let item = author.rng.below(ITEMS) as u16;
        author.write(t, item);
        author.read(t, item);
    }
}

/// More begins than there are places, with some going and coming.
pub fn many_open(author: &mut Author) {
    let surplus = author.rng.between(1, 6);
    author.begin_many(OPEN_LIMIT + surplus);
    let mix = Mix {
        items: (0..author.rng.between(2, 40) as u16).collect(),
        crowd: OPEN_LIMIT + 20,
        reads: 45,
        writes: 30,
        commits: 12,
        wrong: 1,
    };
    author.wander(&mix);
}

/// As many begins as a file can hold; or many numbers used up before a run
/// with high ones.
pub fn begins(author: &mut Author, variant: usize) {
    match variant % 3 {
        0 => while author.ask(Request::Begin).is_some() {},
        1 => while burn(author, 1) {},
        _ => {
            let rounds = author.rng.between(4, 200);
            for _ in 0..rounds {
                burn(author, 64);
            }
            let mix = Mix {
                items: (250..260).collect(),
                crowd: 20,
                reads: 40,
                writes: 30,
                commits: 20,
                wrong: 10,
            };
            author.wander(&mix);
        }
    }
}

/// Opens transactions and ends them at once.
fn burn(author: &mut Author, count: usize) -> bool {
    let members = author.begin_many(count);
    for &t in &members {
        if author.rng.percent(50) {
            author.abort(t);
        } else {
            author.commit(t);
        }
    }
    !members.is_empty()
}
