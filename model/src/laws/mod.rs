//! Laws over a whole run, judged from the requests and the answers alone.
//!
//! Nothing here looks at the model's state: the ledger starts empty and is fed
//! by what was asked and what was answered.

mod history;
mod ledger;
mod serial;

use crate::records::{Answer, Request, RequestFile};
use crate::scheduler::Pair;
use history::History;
use ledger::Ledger;
use serial::Serial;
use std::fmt;

#[derive(Clone, Copy, Debug, PartialEq, Eq)]
pub enum Law {
    /// An answer is of a kind that its request can have.
    Fits,
    /// Committed transactions, run alone in commit order, read what they were
    /// answered.
    SerialReads,
    /// That serial run leaves the values at the end.
    SerialValues,
    /// Nobody touches an item between another's write of it and that one's end.
    Strict,
    /// Conflicting events stand in the order of the commits.
    CommitOrdered,
    /// While any transaction is open, one of them waits for nobody.
    SomeoneCanGoOn,
}

/// A law that a run breaks.
#[derive(Debug, PartialEq, Eq)]
pub struct Breach {
    pub law: Law,
    /// The number of the answer at which it shows, from 0.
    pub answer: usize,
    pub reason: String,
}

impl fmt::Display for Breach {
    fn fmt(&self, f: &mut fmt::Formatter<'_>) -> fmt::Result {
        let Breach {
            law,
            answer,
            reason,
        } = self;
        write!(f, "law {law:?} broken at answer {answer}: {reason}")
    }
}

/// A breach that does not yet know its place.
type Broken = (Law, String);

/// What an answer says has happened.
#[derive(Clone, Copy, Debug, PartialEq, Eq)]
enum Event {
    /// `own`: the reader held a write lock on the item.
    Read {
        t: u16,
        item: u16,
        value: i32,
        own: bool,
    },
    Write {
        t: u16,
        item: u16,
        value: i32,
    },
    Commit {
        t: u16,
    },
    Abort {
        t: u16,
    },
}

/// The requests of a run with their answers, and the values at its end.
#[derive(Debug, Default)]
pub struct Run {
    pub steps: Vec<(Request, Answer)>,
    pub values: Vec<(u16, i32)>,
}

impl Run {
    /// Reads a run off the bytes. The answers are taken in the order of the
    /// requests; the refusal at which the reading stopped answers none.
    pub fn decode(input: &[u8], output: &[u8]) -> Result<Run, Breach> {
        let file = RequestFile::read(input);
        let mut rest = read_answers(output)?.into_iter();
        let mut run = Run::default();
        for (_, request) in file.requests {
            let answer = rest.next().ok_or_else(|| Breach {
                law: Law::Fits,
                answer: run.steps.len(),
                reason: format!("no answer to {request:?}"),
            })?;
            run.steps.push((request, answer));
        }
        if file.stopped.is_some() {
            rest.next();
        }
        for answer in rest {
            match answer {
                Answer::Holds { item, value } => run.values.push((item, value)),
                Answer::StillOpen { .. } => {}
                _ => {
                    return Err(Breach {
                        law: Law::Fits,
                        answer: run.steps.len(),
                        reason: format!("{answer:?} behind the last request"),
                    })
                }
            }
        }
        Ok(run)
    }
}

fn read_answers(output: &[u8]) -> Result<Vec<Answer>, Breach> {
    let mut answers = Vec::new();
    let mut offset = 0;
    while offset < output.len() {
        let (answer, length) = Answer::read(&output[offset..]).map_err(|refusal| Breach {
            law: Law::Fits,
            answer: answers.len(),
            reason: format!("no answer record at output offset {offset}: {refusal:?}"),
        })?;
        answers.push(answer);
        offset += length;
    }
    Ok(answers)
}

pub fn check_bytes(pair: Pair, input: &[u8], output: &[u8]) -> Result<(), Breach> {
    check(pair, &Run::decode(input, output)?)
}

pub fn check(pair: Pair, run: &Run) -> Result<(), Breach> {
    let mut ledger = Ledger::new(pair);
    let mut serial = Serial::new();
    let mut history = History::new(pair);
    for (number, &(request, answer)) in run.steps.iter().enumerate() {
        let place = |(law, reason): Broken| Breach {
            law,
            answer: number,
            reason,
        };
        let noted = ledger.note(request, answer).map_err(place)?;
        if let Some(event) = noted.event {
            serial.take(event).map_err(place)?;
            history.take(number, event).map_err(place)?;
        }
        // A refusal, or one more wait of a transaction that waits already,
        // leaves the ledger as it was, and so leaves this law as it was.
        if noted.changed {
            ledger.someone_can_go_on().map_err(place)?;
        }
    }
    history.commit_ordered()?;
    serial.leaves(&run.values).map_err(|(law, reason)| Breach {
        law,
        answer: run.steps.len(),
        reason,
    })
}
