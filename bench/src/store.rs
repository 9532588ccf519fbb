//! The values, and the pending writes over or beside them.
//!
//! The scheduler says of every read and write whether the transaction has a write lock on the item, which it has
//! exactly if it has a pending write there.

use crate::records::Refusal;
use crate::slots::{OPEN, Slot};

pub const ITEMS: usize = 1024;

/// How many writes may be pending.
pub const ROOM: usize = 512;

/// How many writes one transaction may have pending beside the values.
pub const SHARE: usize = 64;

pub trait Store {
    /// A write waits for another writer of the item.
    const WRITERS_EXCLUDE: bool;

    fn new() -> Self;
    fn read(&self, t: Slot, item: u16, written: bool) -> i32;
    fn write(&mut self, t: Slot, item: u16, value: i32, written: bool) -> Result<(), Refusal>;
    fn publish(&mut self, t: Slot);
    fn discard(&mut self, t: Slot);
    fn into_committed(self) -> [i32; ITEMS];
}

#[derive(Clone, Copy)]
struct Entry {
    owner: Slot,
    item: u16,
    value: i32,
}

/// Pending values stand among the values; `before` has what stood there.
pub struct InPlace {
    values: [i32; ITEMS],
    before: Vec<Entry>,
}

impl Store for InPlace {
    const WRITERS_EXCLUDE: bool = true;

    fn new() -> InPlace {
        InPlace {
            values: [0; ITEMS],
            before: Vec::with_capacity(ROOM),
        }
    }

    fn read(&self, _: Slot, item: u16, _: bool) -> i32 {
        self.values[usize::from(item)]
    }

    fn write(&mut self, t: Slot, item: u16, value: i32, written: bool) -> Result<(), Refusal> {
        let current = &mut self.values[usize::from(item)];
        if !written {
            if self.before.len() == ROOM {
                return Err(Refusal::NoRoom);
            }
            self.before.push(Entry {
                owner: t,
                item,
                value: *current,
            });
        }
        *current = value;
        Ok(())
    }

    fn publish(&mut self, t: Slot) {
        self.before.retain(|entry| entry.owner != t);
    }

    fn discard(&mut self, t: Slot) {
        let values = &mut self.values;
        self.before.retain(|entry| {
            if entry.owner == t {
                values[usize::from(entry.item)] = entry.value;
            }
            entry.owner != t
        });
    }

    fn into_committed(mut self) -> [i32; ITEMS] {
        for entry in self.before {
            self.values[usize::from(entry.item)] = entry.value;
        }
        self.values
    }
}

/// Pending writes are kept apart from the values until the commit.
pub struct Beside {
    values: [i32; ITEMS],
    writes: Vec<Entry>,
    shares: [usize; OPEN],
}

impl Store for Beside {
    const WRITERS_EXCLUDE: bool = false;

    fn new() -> Beside {
        Beside {
            values: [0; ITEMS],
            writes: Vec::with_capacity(ROOM),
            shares: [0; OPEN],
        }
    }

    fn read(&self, t: Slot, item: u16, written: bool) -> i32 {
        let own = |entry: &&Entry| entry.item == item && entry.owner == t;
        let pending = written.then(|| self.writes.iter().find(own)).flatten();
        pending.map_or(self.values[usize::from(item)], |entry| entry.value)
    }

    fn write(&mut self, t: Slot, item: u16, value: i32, written: bool) -> Result<(), Refusal> {
        if written {
            let own = |entry: &&mut Entry| entry.item == item && entry.owner == t;
            if let Some(entry) = self.writes.iter_mut().find(own) {
                entry.value = value;
            }
            return Ok(());
        }
        let share = &mut self.shares[usize::from(t.0)];
        if self.writes.len() == ROOM || *share == SHARE {
            return Err(Refusal::NoRoom);
        }
        *share += 1;
        self.writes.push(Entry {
            owner: t,
            item,
            value,
        });
        Ok(())
    }

    fn publish(&mut self, t: Slot) {
        for entry in self.writes.iter().filter(|entry| entry.owner == t) {
            self.values[usize::from(entry.item)] = entry.value;
        }
        self.discard(t);
    }

    fn discard(&mut self, t: Slot) {
        self.writes.retain(|entry| entry.owner != t);
        self.shares[usize::from(t.0)] = 0;
    }

    fn into_committed(self) -> [i32; ITEMS] {
        self.values
    }
}
