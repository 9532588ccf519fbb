//! Writes a request file while the model answers, so that it knows who is
//! open and who waits.

use super::rng::Rng;
use crate::records::{request_bytes, Request};
use crate::scheduler::{Pair, Scheduler, Step};

const EXTREME: [i32; 10] = [
    i32::MIN,
    i32::MAX,
    i32::MIN + 1,
    -1,
    0,
    1,
    255,
    256,
    -256,
    65_536,
];

pub struct Author {
    pub rng: Rng,
    model: Scheduler,
    bytes: Vec<u8>,
    limit: usize,
}

/// How a random run is mixed.
pub struct Mix {
    pub items: Vec<u16>,
    /// How many transactions it tries to keep open.
    pub crowd: usize,
    /// In a hundred: how often an active one reads, or else writes, or else
    /// commits; the rest are aborts.
    pub reads: usize,
    pub writes: usize,
    pub commits: usize,
    /// In a hundred: how often a request is out of place or names nobody.
    pub wrong: usize,
}

impl Author {
    pub fn new(mut rng: Rng, limit: usize) -> Author {
        let pair = rng.pick(&Pair::BOTH);
        Author {
            rng,
            model: Scheduler::new(pair),
            bytes: Vec::new(),
            limit,
        }
    }

    /// Adds the request, if it fits into the file, and says what comes of it.
    pub fn ask(&mut self, request: Request) -> Option<Step> {
        let bytes = request_bytes(&[request]);
        if bytes.len() > self.room() {
            return None;
        }
        self.bytes.extend(bytes);
        Some(self.model.call(request))
    }

    pub fn room(&self) -> usize {
        self.limit - self.bytes.len()
    }

    pub fn finish(self) -> Vec<u8> {
        self.bytes
    }

    pub fn model(&self) -> &Scheduler {
        &self.model
    }

    pub fn begin(&mut self) -> Option<u16> {
        match self.ask(Request::Begin)? {
            Step::Opened { t } => Some(t),
            _ => None,
        }
    }

    pub fn begin_many(&mut self, count: usize) -> Vec<u16> {
        (0..count).filter_map(|_| self.begin()).collect()
    }

    pub fn read(&mut self, t: u16, item: u16) -> Option<Step> {
        self.ask(Request::Read { t, item })
    }

    pub fn write(&mut self, t: u16, item: u16) -> Option<Step> {
        let value = self.any_value();
        self.ask(Request::Write { t, item, value })
    }

    pub fn commit(&mut self, t: u16) -> Option<Step> {
        self.ask(Request::Commit { t })
    }

    pub fn abort(&mut self, t: u16) -> Option<Step> {
        self.ask(Request::Abort { t })
    }

    pub fn retry(&mut self, t: u16) -> Option<Step> {
        self.ask(Request::Retry { t })
    }

    pub fn any_value(&mut self) -> i32 {
        match self.rng.below(4) {
            0 => self.rng.pick(&EXTREME),
            1 => self.rng.next() as i32,
            _ => self.rng.below(9) as i32 - 2,
        }
    }

    pub fn open(&self) -> Vec<u16> {
        self.model.open().map(|(t, _)| t).collect()
    }

    pub fn active(&self) -> Vec<u16> {
        let open = self.model.open();
        open.filter(|(_, waits)| !waits).map(|(t, _)| t).collect()
    }

    pub fn waits(&self, t: u16) -> bool {
        self.model.open().any(|open| open == (t, true))
    }

    /// A number that is mostly not open: 0, closed, never opened, too high.
    pub fn wrong_number(&mut self) -> u16 {
        let begun = self.model.begun();
        match self.rng.below(6) {
            0 => 0,
            1 => self.rng.below(usize::from(begun) + 1) as u16,
            2 => begun + 1,
            3 => self.rng.pick(&[59_999, 60_000, 60_001, 65_535]),
            4 => begun.swap_bytes(),
            _ => self.rng.next() as u16,
        }
    }

    pub fn any_request(&mut self, t: u16, item: u16) -> Request {
        match self.rng.below(5) {
            0 => Request::Read { t, item },
            1 => Request::Write {
                t,
                item,
                value: self.any_value(),
            },
            2 => Request::Commit { t },
            3 => Request::Abort { t },
            _ => Request::Retry { t },
        }
    }

    /// One request of a random run.
    pub fn stroll(&mut self, mix: &Mix) -> Option<Step> {
        let open = self.open();
        let item = self.rng.pick(&mix.items);
        if open.is_empty() || open.len() < mix.crowd && self.rng.percent(30) {
            return self.ask(Request::Begin);
        }
        if self.rng.percent(mix.wrong) {
            let t = match self.rng.percent(50) {
                true => self.wrong_number(),
                false => self.rng.pick(&open),
            };
            let request = self.any_request(t, item);
            return self.ask(request);
        }
        let t = self.rng.pick(&open);
        if self.waits(t) {
            return if self.rng.percent(92) {
                self.retry(t)
            } else {
                self.abort(t)
            };
        }
        match self.rng.below(100) {
            roll if roll < mix.reads => self.read(t, item),
            roll if roll < mix.reads + mix.writes => self.write(t, item),
            roll if roll < mix.reads + mix.writes + mix.commits => self.commit(t),
            _ => self.abort(t),
        }
    }

    /// A random run until the file is full.
    pub fn wander(&mut self, mix: &Mix) {
        while self.room() > 0 && self.stroll(mix).is_some() {}
    }

    /// Lets the open ones end: whoever can commits, the rest are aborted.
    pub fn drain(&mut self) {
        for _ in 0..4 {
            let mut open = self.open();
            self.rng.shuffle(&mut open);
            for t in open {
                if self.waits(t) {
                    self.retry(t);
                } else {
                    self.commit(t);
                }
            }
        }
        for t in self.open() {
            self.abort(t);
        }
    }
}
