//! The places of open transactions, and sets of them.

/// How many transactions may be open.
pub const OPEN: usize = 64;

/// The place that a transaction keeps while it is open.
#[derive(Clone, Copy, Debug, PartialEq, Eq)]
pub struct Slot(pub u8);

#[derive(Clone, Copy, Debug, Default, PartialEq, Eq)]
pub struct Slots(pub u64);

impl Slots {
    pub const ALL: Slots = Slots(u64::MAX);

    pub fn contains(self, slot: Slot) -> bool {
        self.0 >> slot.0 & 1 == 1
    }

    pub fn insert(&mut self, slot: Slot) {
        self.0 |= 1 << slot.0;
    }

    pub fn remove(&mut self, slot: Slot) {
        self.0 &= !(1 << slot.0);
    }

    pub fn is_empty(self) -> bool {
        self.0 == 0
    }

    pub fn first(self) -> Option<Slot> {
        (self.0 != 0).then(|| Slot(self.0.trailing_zeros() as u8))
    }

    pub fn and(self, other: Slots) -> Slots {
        Slots(self.0 & other.0)
    }

    pub fn or(self, other: Slots) -> Slots {
        Slots(self.0 | other.0)
    }

    pub fn without(self, other: Slots) -> Slots {
        Slots(self.0 & !other.0)
    }
}

impl From<Slot> for Slots {
    fn from(slot: Slot) -> Slots {
        Slots(1 << slot.0)
    }
}

/// From the lowest slot up.
impl Iterator for Slots {
    type Item = Slot;

    fn next(&mut self) -> Option<Slot> {
        let slot = self.first()?;
        self.remove(slot);
        Some(slot)
    }
}
