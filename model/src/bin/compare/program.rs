use cevoluneth_model::server::Script;
use std::io::{Read, Write};
use std::path::PathBuf;
use std::process::{Child, Command, Stdio};
use std::sync::mpsc;
use std::thread;
use std::time::Duration;

/// A program that has not ended its output by then hangs.
const PATIENCE: Duration = Duration::from_secs(60);

pub enum Program {
    Model,
    File(PathBuf),
}

impl Program {
    pub fn at(path: &str) -> Result<Program, String> {
        let full = std::fs::canonicalize(path).map_err(|error| format!("{path}: {error}"))?;
        Ok(Program::File(full))
    }

    /// What the program writes for this input.
    pub fn run(&self, script: &Script, input: &[u8]) -> Result<Vec<u8>, String> {
        match self {
            Program::Model => Ok(script.to_bytes()),
            Program::File(path) => run_file(path, input),
        }
    }
}

fn run_file(path: &PathBuf, input: &[u8]) -> Result<Vec<u8>, String> {
    let mut child = Command::new(path)
        .stdin(Stdio::piped())
        .stdout(Stdio::piped())
        .spawn()
        .map_err(|error| format!("does not start: {error}"))?;
    let output = talk(&mut child, input);
    if output.is_err() {
        // It may have ended by itself in the meantime, which is as good.
        let _ = child.kill();
    }
    let status = child
        .wait()
        .map_err(|error| format!("cannot be waited for: {error}"))?;
    let output = output?;
    match status.code() {
        Some(0) => Ok(output),
        _ => Err(format!("ended with {status}, not 0")),
    }
}

/// Input and output go through a thread each, so neither pipe can block the
/// other.
fn talk(child: &mut Child, input: &[u8]) -> Result<Vec<u8>, String> {
    let mut stdin = child.stdin.take().expect("is piped");
    let mut stdout = child.stdout.take().expect("is piped");
    let input = input.to_vec();
    // A program may stop reading an input that is too long, so a broken pipe
    // is no fault: what counts is what it writes.
    thread::spawn(move || stdin.write_all(&input));
    let (sender, receiver) = mpsc::channel();
    thread::spawn(move || {
        let mut output = Vec::new();
        let result = stdout.read_to_end(&mut output).map(|_| output);
        sender.send(result)
    });
    match receiver.recv_timeout(PATIENCE) {
        Ok(result) => result.map_err(|error| format!("its output cannot be read: {error}")),
        Err(_) => Err(format!("no end of the output after {PATIENCE:?}")),
    }
}
