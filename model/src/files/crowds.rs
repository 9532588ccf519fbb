//! Files of transactions that get into each other's way.

use super::author::{Author, Mix};
use crate::records::Request;

/// Two to four items that everybody wants.
pub fn hot(author: &mut Author) {
    let count = author.rng.between(2, 4) as u16;
    let mix = Mix {
        items: (5..5 + count).collect(),
        crowd: author.rng.between(2, 64),
        reads: author.rng.between(20, 55),
        writes: author.rng.between(10, 30),
        commits: 10,
        wrong: 2,
    };
    author.wander(&mix);
}

/// Some dozens of items, and transactions that grow old.
pub fn mixed(author: &mut Author) {
    let count = author.rng.between(8, 200) as u16;
    let commits = author.rng.between(2, 15);
    let mix = Mix {
        items: (0..count).collect(),
        crowd: author.rng.between(3, 64),
        reads: 45,
        writes: 38,
        commits,
        wrong: 3,
    };
    author.wander(&mix);
}

/// Few transactions on one to three items: short files, of which there are many.
pub fn small(author: &mut Author) {
    let count = author.rng.between(1, 3) as u16;
    let mix = Mix {
        items: (1..=count).collect(),
        crowd: author.rng.between(2, 5),
        reads: 32,
        writes: 32,
        commits: 30,
        wrong: 4,
    };
    author.wander(&mix);
}

/// One wait of a chain: `from` comes to wait for `to`.
struct Link {
    from: u16,
    to: u16,
    item: u16,
    kind: LinkKind,
}

#[derive(Clone, Copy, PartialEq, Eq)]
enum LinkKind {
    ReadBehindWrite,
    WriteBehindWrite,
    CommitBehindRead,
}

impl Link {
    /// What has to be there before anybody waits.
    fn prepare(&self, author: &mut Author) {
        if self.kind == LinkKind::CommitBehindRead {
            author.read(self.to, self.item);
            author.write(self.from, self.item);
        } else {
            author.write(self.to, self.item);
        }
    }

    fn wait(&self, author: &mut Author) {
        let (t, item) = (self.from, self.item);
        let request = match self.kind {
            LinkKind::ReadBehindWrite => Request::Read { t, item },
            LinkKind::WriteBehindWrite => Request::Write { t, item, value: 3 },
            LinkKind::CommitBehindRead => Request::Commit { t },
        };
        author.ask(request);
    }
}

/// Chains of waits; the first has the given length, and most are closed into a
/// deadlock by their last link.
pub fn chains(author: &mut Author, first: usize) {
    let mut length = first;
    while author.room() > 40 * length {
        chain(author, length);
        length = author.rng.between(2, 64);
    }
}

fn chain(author: &mut Author, length: usize) {
    let members = author.begin_many(length);
    if members.len() < 2 {
        return author.drain();
    }
    let mut links = links(author, &members);
    links.iter().for_each(|link| link.prepare(author));
    let closing = links.pop();
    match author.rng.below(3) {
        0 => links.reverse(),
        1 => author.rng.shuffle(&mut links),
        _ => {}
    }
    links.iter().for_each(|link| link.wait(author));
    if let Some(closing) = closing.filter(|_| author.rng.percent(80)) {
        closing.wait(author);
    }
    disturb(author, &members);
    author.drain();
}

fn links(author: &mut Author, members: &[u16]) -> Vec<Link> {
    let base = author.rng.below(900) as u16;
    let kinds = [
        LinkKind::ReadBehindWrite,
        LinkKind::WriteBehindWrite,
        LinkKind::CommitBehindRead,
    ];
    let uniform = Some(author.rng.pick(&kinds)).filter(|_| author.rng.percent(50));
    let followers = members.iter().cycle().skip(1);
    (base..)
        .zip(members.iter().zip(followers))
        .map(|(item, (&from, &to))| Link {
            from,
            to,
            item,
            kind: uniform.unwrap_or_else(|| author.rng.pick(&kinds)),
        })
        .collect()
}

/// A few retries and aborts in the midst of the waits.
fn disturb(author: &mut Author, members: &[u16]) {
    for _ in 0..author.rng.below(8) {
        let t = author.rng.pick(members);
        if author.rng.percent(25) {
            author.abort(t);
        } else {
            author.retry(t);
        }
    }
}

/// Commits that wait for many readers, who go one by one.
pub fn readers(author: &mut Author) {
    while author.room() > 2_500 {
        let writer_count = author.rng.between(1, 3);
        let mut readers = {
            let count = author.rng.between(2, 64 - writer_count);
            author.begin_many(count)
        };
        let writers = author.begin_many(writer_count);
        let base = author.rng.below(1_000) as u16;
        let items: Vec<u16> = (base..=base + author.rng.below(3) as u16).collect();
        for &t in &readers {
            let item = author.rng.pick(&items);
            author.read(t, item);
        }
        for &t in &writers {
            let item = author.rng.pick(&items);
            author.write(t, item);
            author.commit(t);
        }
        author.rng.shuffle(&mut readers);
        for t in readers {
            leave(author, t, &writers, &items);
        }
        author.drain();
    }
}

/// A reader ends, or first reads or writes what a writer has; then a writer
/// tries again.
fn leave(author: &mut Author, t: u16, writers: &[u16], items: &[u16]) {
    let item = author.rng.pick(items);
    match author.rng.below(8) {
        0 => author.write(t, item),
        1 => author.read(t, item),
        2..=4 => author.abort(t),
        _ => author.commit(t),
    };
    if author.rng.percent(60) {
        let writer = author.rng.pick(writers);
        author.retry(writer);
    }
}
