//! The scheduler as it is meant: plain maps and sets, and a plain graph search.

use crate::records::{Refusal, Request};
use std::collections::{BTreeMap, BTreeSet};

pub const ITEMS: usize = 1_024;
pub const OPEN_LIMIT: usize = 64;
pub const BEGIN_LIMIT: u16 = 60_000;
pub const LOCK_LIMIT: usize = 2_048;
pub const ROOM: usize = 512;

/// A lock rule together with the store that it stands over.
#[derive(Clone, Copy, Debug, PartialEq, Eq)]
pub enum Pair {
    /// `so1`: values in place, a write passes readers but no writer.
    InPlace,
    /// `so2`: private pending writes, a write passes readers and writers.
    Private,
}

impl Pair {
    pub const BOTH: [Pair; 2] = [Pair::InPlace, Pair::Private];

    pub fn name(self) -> &'static str {
        match self {
            Pair::InPlace => "so1",
            Pair::Private => "so2",
        }
    }

    fn share(self) -> usize {
        match self {
            Pair::InPlace => 512,
            Pair::Private => 64,
        }
    }

    /// May `asked` stand beside another transaction's lock of kind `held`?
    pub fn permits(self, asked: LockKind, held: LockKind) -> bool {
        match (asked, held) {
            (LockKind::Read, LockKind::Read) => true,
            (LockKind::Read, LockKind::Write) => false,
            (LockKind::Write, LockKind::Read) => true,
            (LockKind::Write, LockKind::Write) => self == Pair::Private,
        }
    }
}

#[derive(Clone, Copy, Debug, PartialEq, Eq)]
pub enum LockKind {
    Read,
    Write,
}

#[derive(Clone, Copy, Debug, PartialEq, Eq)]
struct Lock {
    holder: u16,
    kind: LockKind,
}

/// What a transaction may have to wait with.
#[derive(Clone, Copy, Debug, PartialEq, Eq)]
enum Work {
    Read { item: u16 },
    Write { item: u16, value: i32 },
    Commit,
}

/// What came of one request.
#[derive(Clone, Debug, PartialEq, Eq)]
pub enum Step {
    Opened { t: u16 },
    Value { t: u16, item: u16, value: i32 },
    Written { t: u16, item: u16 },
    Committed { t: u16 },
    Aborted { t: u16 },
    Wait { t: u16, blockers: BTreeSet<u16> },
    Deadlock { t: u16 },
    Refused(Refusal),
}

#[derive(Debug, Default)]
struct Transaction {
    held: Option<Work>,
    locked: BTreeSet<u16>,
    pending: BTreeMap<u16, i32>,
}

#[derive(Debug)]
pub struct Scheduler {
    pair: Pair,
    begun: u16,
    open: BTreeMap<u16, Transaction>,
    /// The locks of each item, in the order of granting. The order matters
    /// only among locks of the same item.
    locks: Vec<Vec<Lock>>,
    lock_count: usize,
    committed: Vec<i32>,
}

impl Scheduler {
    pub fn new(pair: Pair) -> Scheduler {
        Scheduler {
            pair,
            begun: 0,
            open: BTreeMap::new(),
            locks: vec![Vec::new(); ITEMS],
            lock_count: 0,
            committed: vec![0; ITEMS],
        }
    }

    pub fn call(&mut self, request: Request) -> Step {
        let step = match request {
            Request::Begin => self.begin(),
            Request::Read { t, item } => self.ask(t, Work::Read { item }),
            Request::Write { t, item, value } => self.ask(t, Work::Write { item, value }),
            Request::Commit { t } => self.ask(t, Work::Commit),
            Request::Abort { t } => self.abort(t),
            Request::Retry { t } => self.retry(t),
        };
        step.unwrap_or_else(Step::Refused)
    }

    /// The open transactions by rising number, each with whether it waits.
    pub fn open(&self) -> impl Iterator<Item = (u16, bool)> + '_ {
        self.open.iter().map(|(&t, tx)| (t, tx.held.is_some()))
    }

    pub fn committed(&self) -> &[i32] {
        &self.committed
    }

    pub fn begun(&self) -> u16 {
        self.begun
    }

    pub fn lock_count(&self) -> usize {
        self.lock_count
    }

    pub fn pending_count(&self) -> usize {
        self.open.values().map(|tx| tx.pending.len()).sum()
    }

    fn begin(&mut self) -> Result<Step, Refusal> {
        if self.open.len() == OPEN_LIMIT {
            return Err(Refusal::TooManyOpen);
        }
        if self.begun == BEGIN_LIMIT {
            return Err(Refusal::NumbersSpent);
        }
        self.begun += 1;
        self.open.insert(self.begun, Transaction::default());
        Ok(Step::Opened { t: self.begun })
    }

    fn ask(&mut self, t: u16, work: Work) -> Result<Step, Refusal> {
        if self.transaction(t)?.held.is_some() {
            return Err(Refusal::Waiting);
        }
        if let Work::Read { item } | Work::Write { item, .. } = work {
            if usize::from(item) >= ITEMS {
                return Err(Refusal::NoSuchItem);
            }
        }
        self.attempt(t, work)
    }

    fn retry(&mut self, t: u16) -> Result<Step, Refusal> {
        let held = self.transaction(t)?.held;
        self.attempt(t, held.ok_or(Refusal::NotWaiting)?)
    }

    fn abort(&mut self, t: u16) -> Result<Step, Refusal> {
        self.transaction(t)?;
        self.close(t);
        Ok(Step::Aborted { t })
    }

    fn attempt(&mut self, t: u16, work: Work) -> Result<Step, Refusal> {
        let blockers = self.blockers(t, work);
        if !blockers.is_empty() {
            return Ok(self.block(t, work, blockers));
        }
        match work {
            Work::Read { item } => self.read(t, item),
            Work::Write { item, value } => self.write(t, item, value),
            Work::Commit => Ok(self.commit(t)),
        }
    }

    fn block(&mut self, t: u16, work: Work, blockers: BTreeSet<u16>) -> Step {
        if self.leads_to(&blockers, t) {
            self.close(t);
            return Step::Deadlock { t };
        }
        self.tx(t).held = Some(work);
        Step::Wait { t, blockers }
    }

    fn read(&mut self, t: u16, item: u16) -> Result<Step, Refusal> {
        if !self.tx(t).locked.contains(&item) {
            self.check_lock_list()?;
            self.add_lock(t, item, LockKind::Read);
        }
        self.tx(t).held = None;
        let own = self.tx(t).pending.get(&item).copied();
        let value = own.unwrap_or(self.committed[usize::from(item)]);
        Ok(Step::Value { t, item, value })
    }

    fn write(&mut self, t: u16, item: u16, value: i32) -> Result<Step, Refusal> {
        let lacks_lock = !self.holds(t, item, LockKind::Write);
        if lacks_lock {
            self.check_lock_list()?;
        }
        self.check_room(t, item)?;
        if lacks_lock {
            self.add_lock(t, item, LockKind::Write);
        }
        let tx = self.tx(t);
        tx.pending.insert(item, value);
        tx.held = None;
        Ok(Step::Written { t, item })
    }

    fn commit(&mut self, t: u16) -> Step {
        for (item, value) in std::mem::take(&mut self.tx(t).pending) {
            self.committed[usize::from(item)] = value;
        }
        self.close(t);
        Step::Committed { t }
    }

    /// Removes an open transaction with its locks and pending writes.
    fn close(&mut self, t: u16) {
        let tx = self.open.remove(&t).expect("only open ones are closed");
        for item in tx.locked {
            let locks = &mut self.locks[usize::from(item)];
            let before = locks.len();
            locks.retain(|lock| lock.holder != t);
            self.lock_count -= before - locks.len();
        }
    }

    fn transaction(&self, t: u16) -> Result<&Transaction, Refusal> {
        self.open.get(&t).ok_or(Refusal::NotOpen)
    }

    fn tx(&mut self, t: u16) -> &mut Transaction {
        self.open.get_mut(&t).expect("was found open before")
    }

    fn check_lock_list(&self) -> Result<(), Refusal> {
        if self.lock_count == LOCK_LIMIT {
            return Err(Refusal::LockListFull);
        }
        Ok(())
    }

    fn check_room(&self, t: u16, item: u16) -> Result<(), Refusal> {
        let own = &self.transaction(t)?.pending;
        let is_new = !own.contains_key(&item);
        if is_new && (self.pending_count() == ROOM || own.len() == self.pair.share()) {
            return Err(Refusal::NoRoom);
        }
        Ok(())
    }

    fn add_lock(&mut self, t: u16, item: u16, kind: LockKind) {
        self.locks[usize::from(item)].push(Lock { holder: t, kind });
        self.lock_count += 1;
        self.tx(t).locked.insert(item);
    }

    fn holds(&self, t: u16, item: u16, kind: LockKind) -> bool {
        self.locks[usize::from(item)].contains(&Lock { holder: t, kind })
    }

    /// Whom `t` would have to wait for with this work, by the locks of now.
    fn blockers(&self, t: u16, work: Work) -> BTreeSet<u16> {
        match work {
            Work::Read { item } if self.holds(t, item, LockKind::Write) => BTreeSet::new(),
            Work::Read { item } => self.conflicting(t, item, LockKind::Read),
            Work::Write { item, .. } => self.conflicting(t, item, LockKind::Write),
            Work::Commit => self.earlier_readers(t),
        }
    }

    fn conflicting(&self, t: u16, item: u16, asked: LockKind) -> BTreeSet<u16> {
        self.locks[usize::from(item)]
            .iter()
            .filter(|lock| lock.holder != t && !self.pair.permits(asked, lock.kind))
            .map(|lock| lock.holder)
            .collect()
    }

    /// The others whose read lock stands before a write lock of `t` on the
    /// same item.
    fn earlier_readers(&self, t: u16) -> BTreeSet<u16> {
        let own_write = Lock {
            holder: t,
            kind: LockKind::Write,
        };
        let mut readers = BTreeSet::new();
        for &item in &self.open[&t].locked {
            let locks = &self.locks[usize::from(item)];
            if let Some(end) = locks.iter().position(|&lock| lock == own_write) {
                let earlier = locks[..end].iter();
                let others = earlier.filter(|lock| lock.kind == LockKind::Read && lock.holder != t);
                readers.extend(others.map(|lock| lock.holder));
            }
        }
        readers
    }

    /// Does a chain of waits lead from one of `starts` to `t`?
    fn leads_to(&self, starts: &BTreeSet<u16>, t: u16) -> bool {
        let mut seen = starts.clone();
        let mut todo: Vec<u16> = starts.iter().copied().collect();
        while let Some(u) = todo.pop() {
            if u == t {
                return true;
            }
            if let Some(work) = self.open[&u].held {
                let next = self.blockers(u, work);
                todo.extend(next.into_iter().filter(|&v| seen.insert(v)));
            }
        }
        false
    }
}
