//! The scheduler over a store.

use crate::locks::{Blockers, Kind, Locks};
use crate::records::{Answer, Refusal, Request};
use crate::slots::{OPEN, Slot, Slots};
use crate::store::{ITEMS, Store};

/// How many transactions may begin.
const BEGINS: u16 = 60_000;

/// What a transaction asks for, and holds while it waits.
#[derive(Clone, Copy, Debug)]
enum Ask {
    Read { item: u16 },
    Write { item: u16, value: i32 },
    Commit,
}

#[derive(Clone, Copy, Debug)]
struct Open {
    number: u16,
    slot: Slot,
}

pub struct Scheduler<S> {
    store: S,
    begins: u16,
    /// By rising number.
    open: Vec<Open>,
    free: Slots,
    waiting: Slots,
    /// By slot, as are the requests that are held.
    numbers: [u16; OPEN],
    held: [Ask; OPEN],
    locks: Locks,
}

impl<S: Store> Default for Scheduler<S> {
    fn default() -> Scheduler<S> {
        Scheduler {
            store: S::new(),
            begins: 0,
            open: Vec::with_capacity(OPEN),
            free: Slots::ALL,
            waiting: Slots::default(),
            numbers: [0; OPEN],
            held: [Ask::Commit; OPEN],
            locks: Locks::default(),
        }
    }
}

impl<S: Store> Scheduler<S> {
    pub fn call(&mut self, request: Request) -> Result<Answer, Refusal> {
        match request {
            Request::Begin => self.begin(),
            Request::Read { t, item } => self.ask(t, Ask::Read { item }),
            Request::Write { t, item, value } => self.ask(t, Ask::Write { item, value }),
            Request::Commit { t } => self.ask(t, Ask::Commit),
            Request::Abort { t } => {
                let (place, slot) = self.find(t)?;
                self.store.discard(slot);
                self.close(place, slot);
                Ok(Answer::Aborted { t })
            }
            Request::Retry { t } => {
                let (place, slot) = self.find(t)?;
                if !self.waiting.contains(slot) {
                    return Err(Refusal::NotWaiting);
                }
                self.attempt(place, slot, t, self.held[usize::from(slot.0)])
            }
        }
    }

    /// The open transactions by rising number, each with whether it waits.
    pub fn transactions(&self) -> impl Iterator<Item = (u16, bool)> {
        self.open
            .iter()
            .map(|open| (open.number, self.waiting.contains(open.slot)))
    }

    pub fn into_committed(self) -> [i32; ITEMS] {
        self.store.into_committed()
    }

    fn begin(&mut self) -> Result<Answer, Refusal> {
        let slot = self.free.first().ok_or(Refusal::TooManyOpen)?;
        if self.begins == BEGINS {
            return Err(Refusal::NumbersSpent);
        }
        self.begins += 1;
        self.free.remove(slot);
        self.numbers[usize::from(slot.0)] = self.begins;
        self.open.push(Open {
            number: self.begins,
            slot,
        });
        Ok(Answer::Opened { t: self.begins })
    }

    fn find(&self, t: u16) -> Result<(usize, Slot), Refusal> {
        self.open
            .binary_search_by_key(&t, |open| open.number)
            .map(|place| (place, self.open[place].slot))
            .map_err(|_| Refusal::NotOpen)
    }

    fn close(&mut self, place: usize, slot: Slot) {
        self.open.remove(place);
        self.free.insert(slot);
        self.waiting.remove(slot);
        self.locks.release(slot);
    }

    fn ask(&mut self, t: u16, ask: Ask) -> Result<Answer, Refusal> {
        let (place, slot) = self.find(t)?;
        if self.waiting.contains(slot) {
            return Err(Refusal::Waiting);
        }
        self.attempt(place, slot, t, ask)
    }

    fn attempt(&mut self, place: usize, slot: Slot, t: u16, ask: Ask) -> Result<Answer, Refusal> {
        let blockers = match ask {
            Ask::Read { item } | Ask::Write { item, .. } if usize::from(item) >= ITEMS => {
                return Err(Refusal::NoSuchItem);
            }
            Ask::Read { item } => match self.read(slot, item)? {
                Ok(value) => return Ok(Answer::Value { t, item, value }),
                Err(blockers) => blockers,
            },
            Ask::Write { item, value } => match self.write(slot, item, value)? {
                Ok(()) => return Ok(Answer::Written { t, item }),
                Err(blockers) => blockers,
            },
            Ask::Commit => match self.commit(place, slot) {
                Ok(()) => return Ok(Answer::Committed { t }),
                Err(blockers) => blockers,
            },
        };
        Ok(self.block(place, slot, t, ask, blockers))
    }

    fn read(&mut self, slot: Slot, item: u16) -> Result<Result<i32, Blockers>, Refusal> {
        let found = self.locks.on_item(slot, item);
        if !found.has_write && !found.writers.all.is_empty() {
            return Ok(Err(found.writers));
        }
        if !found.has_write && !found.has_read {
            if self.locks.is_full() {
                return Err(Refusal::LockListFull);
            }
            self.locks.grant(slot, item, Kind::Read);
        }
        self.waiting.remove(slot);
        Ok(Ok(self.store.read(slot, item, found.has_write)))
    }

    fn write(
        &mut self,
        slot: Slot,
        item: u16,
        value: i32,
    ) -> Result<Result<(), Blockers>, Refusal> {
        let found = self.locks.on_item(slot, item);
        if S::WRITERS_EXCLUDE && !found.writers.all.is_empty() {
            return Ok(Err(found.writers));
        }
        if !found.has_write && self.locks.is_full() {
            return Err(Refusal::LockListFull);
        }
        self.store.write(slot, item, value, found.has_write)?;
        if !found.has_write {
            self.locks.grant(slot, item, Kind::Write);
        }
        self.waiting.remove(slot);
        Ok(Ok(()))
    }

    fn commit(&mut self, place: usize, slot: Slot) -> Result<(), Blockers> {
        let readers = self.locks.readers_ahead(slot);
        if !readers.all.is_empty() {
            return Err(readers);
        }
        self.store.publish(slot);
        self.close(place, slot);
        Ok(())
    }

    fn block(&mut self, place: usize, slot: Slot, t: u16, ask: Ask, blockers: Blockers) -> Answer {
        if self.leads_to(slot, blockers.all) {
            self.store.discard(slot);
            self.close(place, slot);
            return Answer::Deadlock { t };
        }
        self.waiting.insert(slot);
        self.held[usize::from(slot.0)] = ask;
        let blocker = blockers
            .named
            .map_or(0, |slot| self.numbers[usize::from(slot.0)]);
        Answer::Wait { t, blocker }
    }

    /// Whether a chain of waits leads from one of `from` to `slot`.
    fn leads_to(&self, slot: Slot, from: Slots) -> bool {
        let mut left = from.and(self.waiting);
        if left.is_empty() {
            return false;
        }
        let rows = self.wait_rows();
        let mut reached = from;
        while let Some(next) = left.next() {
            let more = rows[usize::from(next.0)].without(reached);
            if more.contains(slot) {
                return true;
            }
            reached = reached.or(more);
            left = left.or(more.and(self.waiting));
        }
        false
    }

    /// For each waiting slot, those that it waits for. One pass over the locks is enough: when the write lock of a
    /// transaction comes, all other readers of the item have come.
    fn wait_rows(&self) -> [Slots; OPEN] {
        let mut rows = [Slots::default(); OPEN];
        let mut readers = [Slots::default(); ITEMS];
        let mut writers = [Slots::default(); ITEMS];
        for lock in self.locks.iter() {
            let item = usize::from(lock.item);
            match lock.kind {
                Kind::Read => readers[item].insert(lock.owner),
                Kind::Write => {
                    writers[item].insert(lock.owner);
                    let row = &mut rows[usize::from(lock.owner.0)];
                    *row = row.or(readers[item].without(lock.owner.into()));
                }
            }
        }
        for slot in self.waiting {
            if let Ask::Read { item } | Ask::Write { item, .. } = self.held[usize::from(slot.0)] {
                rows[usize::from(slot.0)] = writers[usize::from(item)].without(slot.into());
            }
        }
        rows
    }
}
