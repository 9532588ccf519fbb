//! A server: request bytes in, answer bytes out.

use crate::records::{INPUT_LIMIT, Refusal, Request, write_committed_value, write_open};
use crate::scheduler::Scheduler;
use crate::store::Store;
use std::io::{self, Read, Write};

pub fn serve<S: Store>(input: &[u8]) -> Vec<u8> {
    let mut out = Vec::with_capacity(2 * input.len());
    if input.len() > INPUT_LIMIT {
        Refusal::InputTooLong.write(0, &mut out);
        return out;
    }
    let mut scheduler = Scheduler::<S>::default();
    let mut rest = input;
    while !rest.is_empty() {
        let place = input.len() - rest.len();
        let (request, behind) = match Request::read(rest) {
            Ok(read) => read,
            Err(refusal) => {
                refusal.write(place, &mut out);
                break;
            }
        };
        match scheduler.call(request) {
            Ok(answer) => answer.write(&mut out),
            Err(refusal) => refusal.write(place, &mut out),
        }
        rest = behind;
    }
    write_closing(scheduler, &mut out);
    out
}

fn write_closing<S: Store>(scheduler: Scheduler<S>, out: &mut Vec<u8>) {
    for (t, waiting) in scheduler.transactions() {
        write_open(t, waiting, out);
    }
    for (item, value) in (0..).zip(scheduler.into_committed()) {
        if value != 0 {
            write_committed_value(item, value, out);
        }
    }
}

/// Serves standard input to standard output.
pub fn main<S: Store>() -> io::Result<()> {
    let mut input = Vec::with_capacity(INPUT_LIMIT + 1);
    // One byte more than is read tells an input that is too long.
    io::stdin()
        .lock()
        .take(INPUT_LIMIT as u64 + 1)
        .read_to_end(&mut input)?;
    let mut stdout = io::stdout().lock();
    stdout.write_all(&serve::<S>(&input))?;
    stdout.flush()
}
