//! Who is open, who waits with what, and who holds which lock, as far as the
//! answers say so.

use super::{Broken, Event, Law};
use crate::records::{Answer, Request};
use crate::scheduler::{LockKind, Pair};
use std::collections::{BTreeMap, BTreeSet};

#[derive(Clone, Copy, Debug, PartialEq, Eq)]
struct Lock {
    holder: u16,
    item: u16,
    kind: LockKind,
}

pub(super) struct Noted {
    pub event: Option<Event>,
    pub changed: bool,
}

pub(super) struct Ledger {
    pair: Pair,
    /// The open transactions, each with the request that it waits with.
    open: BTreeMap<u16, Option<Request>>,
    waiting: usize,
    /// The highest number that was opened; none is ever used again.
    highest: u16,
    /// All locks in the order of granting.
    locks: Vec<Lock>,
}

impl Ledger {
    pub fn new(pair: Pair) -> Ledger {
        Ledger {
            pair,
            open: BTreeMap::new(),
            waiting: 0,
            highest: 0,
            locks: Vec::new(),
        }
    }

    pub fn note(&mut self, request: Request, answer: Answer) -> Result<Noted, Broken> {
        if matches!(answer, Answer::Refused { .. }) {
            return Ok(Noted {
                event: None,
                changed: false,
            });
        }
        let meant = self.meant(request, answer)?;
        let mut changed = true;
        let event = match (meant, answer) {
            (Request::Begin, Answer::Opened { t }) => {
                self.open.insert(t, None);
                self.highest = t;
                None
            }
            (Request::Read { t, item }, Answer::Value { value, .. }) => {
                Some(self.value(t, item, value))
            }
            (Request::Write { t, item, value }, Answer::Written { .. }) => {
                Some(self.written(t, item, value))
            }
            (_, Answer::Wait { t, .. }) => {
                changed = self.set_held(t, Some(meant)).is_none();
                None
            }
            (_, Answer::Committed { t }) => {
                self.strike_out(t);
                Some(Event::Commit { t })
            }
            (_, Answer::Aborted { t } | Answer::Deadlock { t }) => {
                self.strike_out(t);
                Some(Event::Abort { t })
            }
            _ => return Err(misfit(request, answer)),
        };
        Ok(Noted { event, changed })
    }

    /// The request that the answer is to: the held one if a retry was asked.
    /// It has to be one that such an answer can be to.
    fn meant(&self, request: Request, answer: Answer) -> Result<Request, Broken> {
        let held = |t: u16| self.open.get(&t).copied().flatten();
        let meant = match request {
            Request::Retry { t } => held(t).ok_or_else(|| misfit(request, answer))?,
            _ => request,
        };
        let may_ask = match request {
            Request::Read { t, .. } | Request::Write { t, .. } | Request::Commit { t } => {
                self.open.contains_key(&t) && held(t).is_none()
            }
            Request::Abort { t } => self.open.contains_key(&t),
            Request::Begin | Request::Retry { .. } => true,
        };
        let opens_anew = match answer {
            Answer::Opened { t } => t > self.highest,
            _ => true,
        };
        if may_ask && opens_anew && fits(meant, answer) {
            Ok(meant)
        } else {
            Err(misfit(request, answer))
        }
    }

    fn value(&mut self, t: u16, item: u16, value: i32) -> Event {
        self.set_held(t, None);
        let own = self.holds(t, item, LockKind::Write);
        if !own && !self.holds(t, item, LockKind::Read) {
            self.add_lock(t, item, LockKind::Read);
        }
        Event::Read {
            t,
            item,
            value,
            own,
        }
    }

    fn written(&mut self, t: u16, item: u16, value: i32) -> Event {
        self.set_held(t, None);
        if !self.holds(t, item, LockKind::Write) {
            self.add_lock(t, item, LockKind::Write);
        }
        Event::Write { t, item, value }
    }

    fn holds(&self, holder: u16, item: u16, kind: LockKind) -> bool {
        self.locks.contains(&Lock { holder, item, kind })
    }

    fn add_lock(&mut self, holder: u16, item: u16, kind: LockKind) {
        self.locks.push(Lock { holder, item, kind });
    }

    /// Gives back what was held before.
    fn set_held(&mut self, t: u16, held: Option<Request>) -> Option<Request> {
        let before = self.open.insert(t, held).flatten();
        self.waiting += usize::from(held.is_some());
        self.waiting -= usize::from(before.is_some());
        before
    }

    fn strike_out(&mut self, t: u16) {
        self.set_held(t, None);
        self.open.remove(&t);
        self.locks.retain(|lock| lock.holder != t);
    }

    /// Only where all open ones wait are the locks looked at.
    pub fn someone_can_go_on(&self) -> Result<(), Broken> {
        if self.open.is_empty() || self.waiting < self.open.len() {
            return Ok(());
        }
        let mut held = self.open.iter();
        if held.any(|(&t, held)| held.is_some_and(|request| !self.is_blocked(t, request))) {
            return Ok(());
        }
        let open: Vec<_> = self.open.keys().collect();
        let reason = format!("each of the open ones waits for another: {open:?}");
        Err((Law::SomeoneCanGoOn, reason))
    }

    fn is_blocked(&self, t: u16, request: Request) -> bool {
        match request {
            Request::Read { item, .. } => {
                !self.holds(t, item, LockKind::Write) && self.conflicts(t, item, LockKind::Read)
            }
            Request::Write { item, .. } => self.conflicts(t, item, LockKind::Write),
            Request::Commit { .. } => self.has_earlier_reader(t),
            _ => false,
        }
    }

    fn conflicts(&self, t: u16, item: u16, asked: LockKind) -> bool {
        self.locks.iter().any(|lock| {
            lock.item == item && lock.holder != t && !self.pair.permits(asked, lock.kind)
        })
    }

    /// One pass from the end, with the items on which a write lock of `t`
    /// has been met.
    fn has_earlier_reader(&self, t: u16) -> bool {
        let mut written = BTreeSet::new();
        self.locks.iter().rev().any(|lock| match lock.kind {
            LockKind::Write => {
                if lock.holder == t {
                    written.insert(lock.item);
                }
                false
            }
            LockKind::Read => lock.holder != t && written.contains(&lock.item),
        })
    }
}

fn fits(meant: Request, answer: Answer) -> bool {
    match (meant, answer) {
        (Request::Begin, Answer::Opened { .. }) => true,
        (Request::Read { t, item }, Answer::Value { t: u, item: j, .. }) => (t, item) == (u, j),
        (Request::Write { t, item, .. }, Answer::Written { t: u, item: j }) => (t, item) == (u, j),
        (Request::Commit { t }, Answer::Committed { t: u }) => t == u,
        (Request::Abort { t }, Answer::Aborted { t: u }) => t == u,
        (
            Request::Read { t, .. } | Request::Write { t, .. } | Request::Commit { t },
            Answer::Wait { t: u, .. } | Answer::Deadlock { t: u },
        ) => t == u,
        _ => false,
    }
}

fn misfit(request: Request, answer: Answer) -> Broken {
    let reason = format!("{answer:?} cannot be the answer to {request:?} here");
    (Law::Fits, reason)
}
