//! The locks in the order of granting.

use crate::slots::{Slot, Slots};
use crate::store::ITEMS;

/// How many locks there may be.
pub const LOCKS: usize = 2048;

#[derive(Clone, Copy, Debug, PartialEq, Eq)]
pub enum Kind {
    Read,
    Write,
}

#[derive(Clone, Copy, Debug)]
pub struct Lock {
    pub item: u16,
    pub owner: Slot,
    pub kind: Kind,
}

/// Those that block a request, and the one that the answer names.
#[derive(Clone, Copy, Debug, Default)]
pub struct Blockers {
    pub all: Slots,
    pub named: Option<Slot>,
}

impl Blockers {
    fn add(&mut self, slot: Slot) {
        self.all.insert(slot);
        self.named.get_or_insert(slot);
    }
}

/// What one transaction finds on an item.
#[derive(Clone, Copy, Debug, Default)]
pub struct OnItem {
    pub has_read: bool,
    pub has_write: bool,
    pub writers: Blockers,
}

pub struct Locks {
    list: Vec<Lock>,
}

impl Default for Locks {
    fn default() -> Locks {
        Locks {
            list: Vec::with_capacity(LOCKS),
        }
    }
}

impl Locks {
    pub fn iter(&self) -> impl DoubleEndedIterator<Item = &Lock> {
        self.list.iter()
    }

    pub fn is_full(&self) -> bool {
        self.list.len() == LOCKS
    }

    pub fn grant(&mut self, owner: Slot, item: u16, kind: Kind) {
        self.list.push(Lock { item, owner, kind });
    }

    pub fn release(&mut self, owner: Slot) {
        self.list.retain(|lock| lock.owner != owner);
    }

    /// Own locks on the item, and the others that have written it.
    pub fn on_item(&self, own: Slot, item: u16) -> OnItem {
        let mut found = OnItem::default();
        for lock in self.list.iter().filter(|lock| lock.item == item) {
            match lock.kind {
                Kind::Read => found.has_read |= lock.owner == own,
                Kind::Write if lock.owner == own => found.has_write = true,
                Kind::Write => found.writers.add(lock.owner),
            }
        }
        found
    }

    /// The others whose read locks stand before a write lock of `own` on the same item.
    pub fn readers_ahead(&self, own: Slot) -> Blockers {
        let mut written = [0u64; ITEMS / 64];
        let mut readers = Blockers::default();
        for lock in self.list.iter().rev() {
            let (word, bit) = (usize::from(lock.item) / 64, 1 << (lock.item % 64));
            match lock.kind {
                Kind::Write if lock.owner == own => written[word] |= bit,
                Kind::Read if lock.owner != own && written[word] & bit != 0 => {
                    readers.add(lock.owner);
                }
                _ => {}
            }
        }
        readers
    }
}
