//! An input in the making.

use super::Workload;
use crate::random::Random;
use crate::records::{Answer, INPUT_LIMIT, Refusal, Request};
use crate::scheduler::Scheduler;
use crate::store::Store;

pub struct Maker<S> {
    random: Random,
    bytes: Vec<u8>,
    full: bool,
    scheduler: Scheduler<S>,
}

impl<S: Store> Maker<S> {
    pub fn new(seed: u64) -> Maker<S> {
        Maker {
            random: Random::new(seed),
            bytes: Vec::with_capacity(INPUT_LIMIT),
            full: false,
            scheduler: Scheduler::default(),
        }
    }

    /// Whether a request has come that the input has no room for.
    pub fn is_full(&self) -> bool {
        self.full
    }

    pub fn ask(&mut self, request: Request) -> Result<Answer, Refusal> {
        let before = self.bytes.len();
        request.write(&mut self.bytes);
        if self.full || self.bytes.len() > INPUT_LIMIT {
            self.bytes.truncate(before);
            self.full = true;
        }
        self.scheduler.call(request)
    }

    /// The number of a new transaction.
    pub fn begin(&mut self) -> u16 {
        match self.ask(Request::Begin) {
            Ok(Answer::Opened { t }) => t,
            other => panic!("a begin was answered {other:?}"),
        }
    }

    pub fn read(&mut self, t: u16, item: u16) {
        let _ = self.ask(Request::Read { t, item });
    }

    pub fn write(&mut self, t: u16, item: u16) {
        let value = self.value();
        let _ = self.ask(Request::Write { t, item, value });
    }

    pub fn value(&mut self) -> i32 {
        self.random.draw() as i32
    }

    pub fn below(&mut self, n: u16) -> u16 {
        self.random.below(u64::from(n)) as u16
    }

    /// A place in a list of that length.
    pub fn pick(&mut self, len: usize) -> usize {
        self.random.below(len as u64) as usize
    }

    pub fn finish(self, name: &'static str) -> Workload {
        let requests = count(&self.bytes);
        Workload {
            name,
            bytes: self.bytes,
            requests,
        }
    }
}

/// How many requests are read from the bytes.
pub fn count(mut bytes: &[u8]) -> usize {
    let mut requests = 0;
    while let Ok((_, rest)) = Request::read(bytes) {
        bytes = rest;
        requests += 1;
    }
    requests
}
