//! Short words for requests and runs.
#![allow(dead_code)]

use cevoluneth_model::records::{Answer, Refusal, Request};
use cevoluneth_model::scheduler::{Pair, Scheduler, Step};

pub const B: Request = Request::Begin;

pub fn r(t: u16, item: u16) -> Request {
    Request::Read { t, item }
}

pub fn w(t: u16, item: u16, value: i32) -> Request {
    Request::Write { t, item, value }
}

pub fn c(t: u16) -> Request {
    Request::Commit { t }
}

pub fn a(t: u16) -> Request {
    Request::Abort { t }
}

pub fn again(t: u16) -> Request {
    Request::Retry { t }
}

pub fn opened(t: u16) -> Answer {
    Answer::Opened { t }
}

pub fn value(t: u16, item: u16, value: i32) -> Answer {
    Answer::Value { t, item, value }
}

pub fn written(t: u16, item: u16) -> Answer {
    Answer::Written { t, item }
}

pub fn committed(t: u16) -> Answer {
    Answer::Committed { t }
}

pub fn aborted(t: u16) -> Answer {
    Answer::Aborted { t }
}

pub fn wait(t: u16, blocker: u16) -> Answer {
    Answer::Wait { t, blocker }
}

pub fn deadlock(t: u16) -> Answer {
    Answer::Deadlock { t }
}

pub fn refused(refusal: Refusal) -> Step {
    Step::Refused(refusal)
}

pub fn waits_for(t: u16, blockers: &[u16]) -> Step {
    Step::Wait {
        t,
        blockers: blockers.iter().copied().collect(),
    }
}

/// A scheduler with transactions 1 to `count` open.
pub fn with_open(pair: Pair, count: u16) -> Scheduler {
    let mut scheduler = Scheduler::new(pair);
    for t in 1..=count {
        assert_eq!(scheduler.call(B), Step::Opened { t });
    }
    scheduler
}

/// Makes the calls and gives what came of the last one.
pub fn last(scheduler: &mut Scheduler, calls: &[Request]) -> Step {
    let (end, before) = calls.split_last().expect("at least one call");
    for &call in before {
        let step = scheduler.call(call);
        assert!(!matches!(step, Step::Refused(_)), "{call:?}: {step:?}");
    }
    scheduler.call(*end)
}
