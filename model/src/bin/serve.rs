//! The model as a server program: `serve so1` or `serve so2`.

use cevoluneth_model::scheduler::Pair;
use cevoluneth_model::server::serve;
use std::io::{self, Read, Write};
use std::process::ExitCode;

fn main() -> ExitCode {
    let name = std::env::args().nth(1).unwrap_or_default();
    let Some(pair) = Pair::BOTH.into_iter().find(|pair| pair.name() == name) else {
        eprintln!("serve so1|so2");
        return ExitCode::from(2);
    };
    let mut input = Vec::new();
    let done = io::stdin()
        .read_to_end(&mut input)
        .and_then(|_| io::stdout().write_all(&serve(pair, &input)));
    match done {
        Ok(()) => ExitCode::SUCCESS,
        Err(error) => {
            eprintln!("{error}");
            ExitCode::FAILURE
        }
    }
}
