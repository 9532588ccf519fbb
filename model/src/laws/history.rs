//! The history of reads, writes, commits and aborts, as read off the answers.

use super::{Breach, Broken, Event, Law};
use crate::scheduler::Pair;
use std::collections::{BTreeMap, BTreeSet};

#[derive(Clone, Copy, PartialEq, Eq)]
enum Access {
    Read,
    Write,
}

struct Entry {
    answer: usize,
    t: u16,
    item: u16,
    access: Access,
}

pub(super) struct History {
    pair: Pair,
    entries: Vec<Entry>,
    /// The items that an open transaction of the private store has written.
    deferred: BTreeMap<u16, BTreeSet<u16>>,
    /// The open transactions that have written an item.
    writers: BTreeMap<u16, BTreeSet<u16>>,
    written: BTreeMap<u16, BTreeSet<u16>>,
    /// The place of each commit among the commits.
    commits: BTreeMap<u16, usize>,
}

impl History {
    pub fn new(pair: Pair) -> History {
        History {
            pair,
            entries: Vec::new(),
            deferred: BTreeMap::new(),
            writers: BTreeMap::new(),
            written: BTreeMap::new(),
            commits: BTreeMap::new(),
        }
    }

    pub fn take(&mut self, answer: usize, event: Event) -> Result<(), Broken> {
        match event {
            Event::Read { own: true, .. } => {}
            Event::Read { t, item, .. } => self.access(answer, t, item, Access::Read)?,
            Event::Write { t, item, .. } if self.pair == Pair::Private => {
                self.deferred.entry(t).or_default().insert(item);
            }
            Event::Write { t, item, .. } => self.access(answer, t, item, Access::Write)?,
            Event::Commit { t } => {
                for item in self.deferred.remove(&t).unwrap_or_default() {
                    self.access(answer, t, item, Access::Write)?;
                }
                self.end(t);
                self.commits.insert(t, self.commits.len());
            }
            Event::Abort { t } => {
                self.deferred.remove(&t);
                self.end(t);
            }
        }
        Ok(())
    }

    fn access(&mut self, answer: usize, t: u16, item: u16, access: Access) -> Result<(), Broken> {
        let writers = self.writers.entry(item).or_default();
        if let Some(writer) = writers.iter().find(|&&writer| writer != t) {
            let reason = format!("{t} has item {item} between the write of {writer} and its end");
            return Err((Law::Strict, reason));
        }
        if access == Access::Write {
            writers.insert(t);
            self.written.entry(t).or_default().insert(item);
        }
        self.entries.push(Entry {
            answer,
            t,
            item,
            access,
        });
        Ok(())
    }

    fn end(&mut self, t: u16) {
        for item in self.written.remove(&t).unwrap_or_default() {
            if let Some(writers) = self.writers.get_mut(&item) {
                writers.remove(&t);
            }
        }
    }

    /// It is enough to keep, for each item, the latest commit among the events
    /// met so far and among the writes: an own event is never later than that
    /// of the transaction itself.
    pub fn commit_ordered(&self) -> Result<(), Breach> {
        let mut latest: BTreeMap<u16, usize> = BTreeMap::new();
        let mut latest_write: BTreeMap<u16, usize> = BTreeMap::new();
        for entry in &self.entries {
            let Some(&commit) = self.commits.get(&entry.t) else {
                continue;
            };
            let before = match entry.access {
                Access::Read => latest_write.get(&entry.item),
                Access::Write => latest.get(&entry.item),
            };
            if before.is_some_and(|&before| before > commit) {
                return Err(out_of_order(entry));
            }
            raise(&mut latest, entry.item, commit);
            if entry.access == Access::Write {
                raise(&mut latest_write, entry.item, commit);
            }
        }
        Ok(())
    }
}

fn raise(latest: &mut BTreeMap<u16, usize>, item: u16, commit: usize) {
    let entry = latest.entry(item).or_insert(commit);
    *entry = commit.max(*entry);
}

fn out_of_order(entry: &Entry) -> Breach {
    let (t, item) = (entry.t, entry.item);
    Breach {
        law: Law::CommitOrdered,
        answer: entry.answer,
        reason: format!("{t} commits before one whose conflicting event on item {item} is earlier"),
    }
}
