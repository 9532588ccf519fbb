//! Judges a program's output byte by byte, with the model beside it.

use crate::records::Answer;
use crate::scheduler::Pair;
use crate::server::Script;
use std::fmt;

/// The first fault of an output: where its record begins, and what is wrong.
#[derive(Debug, PartialEq, Eq)]
pub struct Fault {
    pub offset: usize,
    pub reason: String,
}

impl fmt::Display for Fault {
    fn fmt(&self, f: &mut fmt::Formatter<'_>) -> fmt::Result {
        write!(f, "at output offset {}: {}", self.offset, self.reason)
    }
}

pub fn judge(pair: Pair, input: &[u8], output: &[u8]) -> Result<(), Fault> {
    judge_script(&Script::new(pair, input), output)
}

pub fn judge_script(script: &Script, output: &[u8]) -> Result<(), Fault> {
    let mut walk = Walk { output, offset: 0 };
    for (place, expected) in &script.answers {
        let before = walk.offset;
        let answer = walk.next(&format_args!("{expected:?} to the request at {place}"))?;
        if !expected.accepts(answer) {
            let reason =
                format!("{answer:?}, but {expected:?} is due to the request at place {place}");
            return Err(Fault {
                offset: before,
                reason,
            });
        }
    }
    walk.still_open(&script.still_open)?;
    for &due in &script.values {
        let before = walk.offset;
        let answer = walk.next(&format_args!("{due:?}"))?;
        if answer != due {
            return Err(Fault {
                offset: before,
                reason: format!("{answer:?}, but {due:?} is due"),
            });
        }
    }
    walk.end()
}

struct Walk<'a> {
    output: &'a [u8],
    offset: usize,
}

impl Walk<'_> {
    fn next(&mut self, due: &dyn fmt::Display) -> Result<Answer, Fault> {
        match Answer::read(&self.output[self.offset..]) {
            Ok((answer, length)) => {
                self.offset += length;
                Ok(answer)
            }
            Err(refusal) => Err(Fault {
                offset: self.offset,
                reason: format!("no answer record ({refusal:?}), but {due} is due"),
            }),
        }
    }

    /// The open transactions come in any order, each once.
    fn still_open(&mut self, all: &[Answer]) -> Result<(), Fault> {
        let mut due = all.to_vec();
        while !due.is_empty() {
            let before = self.offset;
            let answer = self.next(&format_args!("one of {due:?}"))?;
            let Some(index) = due.iter().position(|&one| one == answer) else {
                return Err(Fault {
                    offset: before,
                    reason: format!("{answer:?}, but one of {due:?} is due"),
                });
            };
            due.swap_remove(index);
        }
        Ok(())
    }

    fn end(&self) -> Result<(), Fault> {
        let excess = self.output.len() - self.offset;
        if excess > 0 {
            return Err(Fault {
                offset: self.offset,
                reason: format!("{excess} bytes behind the last record"),
            });
        }
        Ok(())
    }
}
