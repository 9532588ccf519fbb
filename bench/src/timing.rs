//! Two programs, timed in turns on the same inputs.

use std::fs::File;
use std::io;
use std::path::{Path, PathBuf};
use std::process::{Command, ExitStatus, Stdio};
use std::time::{Duration, Instant};

pub struct Programs {
    pub proved: PathBuf,
    pub plain: PathBuf,
}

/// The lowest time of each program.
#[derive(Clone, Copy)]
pub struct Lowest {
    pub proved: Duration,
    pub plain: Duration,
}

impl Programs {
    /// Where the outputs differ first, if they do.
    pub fn difference(&self, input: &Path) -> io::Result<Option<usize>> {
        let proved = output(&self.proved, input)?;
        let plain = output(&self.plain, input)?;
        if proved == plain {
            return Ok(None);
        }
        let alike = proved.iter().zip(&plain).take_while(|(a, b)| a == b);
        Ok(Some(alike.count()))
    }

    /// The lowest times for each input. A round goes once through all of them, so that a spell of other work on the
    /// machine spoils a few rounds of every input, and not every round of a few.
    pub fn lowest(&self, inputs: &[PathBuf], rounds: usize) -> io::Result<Vec<Lowest>> {
        let none = Lowest {
            proved: Duration::MAX,
            plain: Duration::MAX,
        };
        let mut times = vec![none; inputs.len()];
        for _ in 0..rounds {
            for (input, lowest) in inputs.iter().zip(&mut times) {
                lowest.proved = lowest.proved.min(time(&self.proved, input)?);
                lowest.plain = lowest.plain.min(time(&self.plain, input)?);
            }
        }
        Ok(times)
    }
}

fn output(program: &Path, input: &Path) -> io::Result<Vec<u8>> {
    let output = Command::new(program).stdin(File::open(input)?).output()?;
    check(program, output.status)?;
    Ok(output.stdout)
}

/// From the start of the program to its end; what it writes goes nowhere.
fn time(program: &Path, input: &Path) -> io::Result<Duration> {
    let mut command = Command::new(program);
    command.stdin(File::open(input)?).stdout(Stdio::null());
    let start = Instant::now();
    let status = command.status()?;
    let time = start.elapsed();
    check(program, status)?;
    Ok(time)
}

fn check(program: &Path, status: ExitStatus) -> io::Result<()> {
    if status.success() {
        return Ok(());
    }
    let program = program.display();
    Err(io::Error::other(format!("{program} ended with {status}")))
}
