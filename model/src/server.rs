//! A server program: request bytes in, answer bytes out.

use crate::records::{Answer, RequestFile};
use crate::scheduler::{Pair, Scheduler, Step};
use std::collections::BTreeSet;

/// What a server may answer to one request.
#[derive(Debug, PartialEq, Eq)]
pub enum Expected {
    Exactly(Answer),
    /// A wait may name any of the blockers.
    Wait {
        t: u16,
        blockers: BTreeSet<u16>,
    },
}

/// All that a server has to write for an input.
#[derive(Debug)]
pub struct Script {
    /// In the order of the requests, each with its place in the input.
    pub answers: Vec<(usize, Expected)>,
    /// The transactions that are still open, in any order.
    pub still_open: Vec<Answer>,
    /// The values other than 0, by rising item.
    pub values: Vec<Answer>,
}

impl Script {
    pub fn new(pair: Pair, input: &[u8]) -> Script {
        let file = RequestFile::read(input);
        let mut scheduler = Scheduler::new(pair);
        let mut answers: Vec<_> = file
            .requests
            .into_iter()
            .map(|(place, request)| (place, expected(scheduler.call(request), place)))
            .collect();
        if let Some((place, refusal)) = file.stopped {
            answers.push((place, Expected::Exactly(refusal.at(place))));
        }
        // Of an input that is too long nothing was called, so nothing is open and
        // all values are 0: there are no closing records.
        Script {
            answers,
            still_open: still_open(&scheduler),
            values: values(&scheduler),
        }
    }

    /// The bytes of a server that names the lowest blocker and lists the open
    /// transactions by rising number.
    pub fn to_bytes(&self) -> Vec<u8> {
        let mut out = Vec::new();
        for (_, expected) in &self.answers {
            expected.simplest().write(&mut out);
        }
        for answer in self.still_open.iter().chain(&self.values) {
            answer.write(&mut out);
        }
        out
    }
}

impl Expected {
    pub fn simplest(&self) -> Answer {
        match self {
            Expected::Exactly(answer) => *answer,
            Expected::Wait { t, blockers } => Answer::Wait {
                t: *t,
                blocker: *blockers.first().expect("a wait has a blocker"),
            },
        }
    }

    pub fn accepts(&self, answer: Answer) -> bool {
        match (self, answer) {
            (Expected::Exactly(expected), _) => *expected == answer,
            (Expected::Wait { t, blockers }, Answer::Wait { t: named, blocker }) => {
                *t == named && blockers.contains(&blocker)
            }
            (Expected::Wait { .. }, _) => false,
        }
    }
}

/// The answer bytes of the model's own server.
pub fn serve(pair: Pair, input: &[u8]) -> Vec<u8> {
    Script::new(pair, input).to_bytes()
}

fn expected(step: Step, place: usize) -> Expected {
    Expected::Exactly(match step {
        Step::Wait { t, blockers } => return Expected::Wait { t, blockers },
        Step::Opened { t } => Answer::Opened { t },
        Step::Value { t, item, value } => Answer::Value { t, item, value },
        Step::Written { t, item } => Answer::Written { t, item },
        Step::Committed { t } => Answer::Committed { t },
        Step::Aborted { t } => Answer::Aborted { t },
        Step::Deadlock { t } => Answer::Deadlock { t },
        Step::Refused(refusal) => refusal.at(place),
    })
}

fn still_open(scheduler: &Scheduler) -> Vec<Answer> {
    scheduler
        .open()
        .map(|(t, waiting)| Answer::StillOpen { t, waiting })
        .collect()
}

fn values(scheduler: &Scheduler) -> Vec<Answer> {
    (0..)
        .zip(scheduler.committed())
        .filter(|&(_, &value)| value != 0)
        .map(|(item, &value)| Answer::Holds { item, value })
        .collect()
}
