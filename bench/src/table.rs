//! The table of a run.

use crate::timing::Lowest;
use crate::workloads::Workload;
use std::time::Duration;

/// Below this a time net of the start is mostly noise, and no ratio of it is told.
const NOISE: Duration = Duration::from_micros(200);

const COLUMNS: [&str; 10] = [
    "workload",
    "requests",
    "proved ms",
    "plain ms",
    "ratio",
    "net proved ms",
    "net plain ms",
    "net ratio",
    "proved ns/request",
    "plain ns/request",
];

/// One row for each input. The first input is the empty one, whose times the net times leave out.
pub fn print(inputs: &[Workload], times: &[Lowest]) {
    println!("| {} |", COLUMNS.join(" | "));
    println!("|{}", "---|".repeat(COLUMNS.len()));
    for (input, &time) in inputs.iter().zip(times) {
        print_row(input, time, times[0]);
    }
}

fn print_row(input: &Workload, time: Lowest, empty: Lowest) {
    let Workload { name, requests, .. } = *input;
    let net = Lowest {
        proved: time.proved.saturating_sub(empty.proved),
        plain: time.plain.saturating_sub(empty.plain),
    };
    println!(
        "| {name} | {requests} | {} | {} | {} | {} | {} | {} | {} | {} |",
        ms(time.proved),
        ms(time.plain),
        ratio(time),
        ms(net.proved),
        ms(net.plain),
        if net.plain < NOISE {
            "".into()
        } else {
            ratio(net)
        },
        each(net.proved, requests),
        each(net.plain, requests),
    );
}

fn ms(time: Duration) -> String {
    format!("{:.2}", time.as_secs_f64() * 1e3)
}

fn ratio(time: Lowest) -> String {
    format!(
        "{:.2}",
        time.proved.as_secs_f64() / time.plain.as_secs_f64()
    )
}

fn each(time: Duration, requests: usize) -> String {
    if requests == 0 {
        return String::new();
    }
    format!("{:.0}", time.as_secs_f64() * 1e9 / requests as f64)
}
