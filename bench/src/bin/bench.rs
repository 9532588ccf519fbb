//! Times the two server programs beside the plain ones, and prints a table for each.

use cevoluneth_bench::store::{Beside, InPlace};
use cevoluneth_bench::table;
use cevoluneth_bench::timing::Programs;
use cevoluneth_bench::workloads::{self, Workload};
use std::path::{Path, PathBuf};
use std::process::ExitCode;
use std::{env, fs, io};

const USAGE: &str = "bench SO1 SO2 [--rounds N] [--seed S] [--inputs FOLDER]";

struct Options {
    so1: PathBuf,
    so2: PathBuf,
    rounds: usize,
    seed: u64,
    /// Where the inputs are put, and left.
    inputs: PathBuf,
}

impl Options {
    fn read(mut words: impl Iterator<Item = String>) -> Option<Options> {
        let mut programs = Vec::new();
        let (mut rounds, mut seed) = (100, 1);
        let mut inputs = env::temp_dir().join("cevoluneth-bench");
        while let Some(word) = words.next() {
            match word.as_str() {
                "--rounds" => rounds = words.next()?.parse().ok().filter(|&n| n > 0)?,
                "--seed" => seed = words.next()?.parse().ok()?,
                "--inputs" => inputs = words.next()?.into(),
                _ => programs.push(PathBuf::from(word)),
            }
        }
        let [so1, so2] = programs.try_into().ok()?;
        Some(Options {
            so1,
            so2,
            rounds,
            seed,
            inputs,
        })
    }

    /// Writes the inputs into files.
    fn put(&self, server: &str, all: &[Workload]) -> io::Result<Vec<PathBuf>> {
        let put = |input: &Workload| {
            let file = format!("{server}-{}.req", input.name.replace(' ', "-"));
            let path = self.inputs.join(file);
            fs::write(&path, &input.bytes).map(|()| path)
        };
        all.iter().map(put).collect()
    }

    /// Compares the outputs on all inputs, and then times both programs. False if outputs differ.
    fn contest(&self, programs: &Programs, server: &str, all: &[Workload]) -> io::Result<bool> {
        let paths = self.put(server, all)?;
        let mut agree = true;
        for path in &paths {
            if let Some(at) = programs.difference(path)? {
                println!("{}: outputs differ from byte {at} on", path.display());
                agree = false;
            }
        }
        if agree {
            let times = programs.lowest(&paths, self.rounds)?;
            table::print(all, &times);
        }
        Ok(agree)
    }

    fn run(&self) -> io::Result<bool> {
        fs::create_dir_all(&self.inputs)?;
        println!("seed {}, lowest of {} rounds", self.seed, self.rounds);
        println!("\nso1: in place, writers pass readers\n");
        let so1 = programs(&self.so1, "plain-so1")?;
        let first = self.contest(&so1, "so1", &workloads::all::<InPlace>(self.seed))?;
        println!("\nso2: private, deferred updates\n");
        let so2 = programs(&self.so2, "plain-so2")?;
        let second = self.contest(&so2, "so2", &workloads::all::<Beside>(self.seed))?;
        Ok(first && second)
    }
}

/// The plain program stands beside this one.
fn programs(proved: &Path, plain: &str) -> io::Result<Programs> {
    let missing = |error| io::Error::other(format!("{}: {error}", proved.display()));
    Ok(Programs {
        proved: fs::canonicalize(proved).map_err(missing)?,
        plain: env::current_exe()?.with_file_name(plain),
    })
}

fn main() -> ExitCode {
    let Some(options) = Options::read(env::args().skip(1)) else {
        eprintln!("{USAGE}");
        return ExitCode::FAILURE;
    };
    match options.run() {
        Ok(true) => ExitCode::SUCCESS,
        Ok(false) => ExitCode::FAILURE,
        Err(error) => {
            eprintln!("bench: {error}");
            ExitCode::FAILURE
        }
    }
}
