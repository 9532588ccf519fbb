//! Runs hostile request files through the two server programs and judges what
//! they write.

mod options;
mod program;
mod tally;

use cevoluneth_model::files::{plan, Plan};
use cevoluneth_model::judge::judge_script;
use cevoluneth_model::laws;
use cevoluneth_model::scheduler::Pair;
use cevoluneth_model::server::Script;
use options::Options;
use program::Program;
use std::process::ExitCode;
use std::time::Instant;
use tally::Tally;

fn main() -> ExitCode {
    let options = match Options::parse(std::env::args().skip(1)) {
        Ok(options) => options,
        Err(reason) => {
            eprintln!("{reason}\n{}", options::USAGE);
            return ExitCode::from(2);
        }
    };
    let start = Instant::now();
    println!("seed {}, {} files", options.seed, options.files);
    let mut tally = Tally::default();
    for plan in plan(options.files) {
        let input = plan.bytes(options.seed);
        if let Err(reason) = compare(&options.programs, plan, &input, &mut tally) {
            tally.print();
            report(&options, plan, &input, &reason);
            return ExitCode::from(1);
        }
    }
    tally.print();
    println!("no fault, {:.1} s", start.elapsed().as_secs_f64());
    ExitCode::SUCCESS
}

fn compare(
    programs: &[Program; 2],
    plan: Plan,
    input: &[u8],
    tally: &mut Tally,
) -> Result<(), String> {
    for (pair, program) in Pair::BOTH.into_iter().zip(programs) {
        let faulty = |reason: String| format!("{}: {reason}", pair.name());
        let script = Script::new(pair, input);
        let output = program.run(&script, input).map_err(faulty)?;
        judge_script(&script, &output).map_err(|fault| faulty(fault.to_string()))?;
        laws::check_bytes(pair, input, &output).map_err(|breach| faulty(breach.to_string()))?;
        tally.add(pair, plan.profile, input, &output);
    }
    Ok(())
}

fn report(options: &Options, plan: Plan, input: &[u8], reason: &str) {
    let Plan { profile, index } = plan;
    println!(
        "FAULT in {profile:?} {index}, seed {}: {reason}",
        options.seed
    );
    let path = std::env::temp_dir().join(format!(
        "compare-{profile:?}-{index}-{}-{}.req",
        options.seed,
        std::process::id()
    ));
    match std::fs::write(&path, input) {
        Ok(()) => println!("the input is in {}", path.display()),
        Err(error) => println!("the input was not saved in {}: {error}", path.display()),
    }
}
