use cevoluneth_model::files::Profile;
use cevoluneth_model::records::{Answer, RequestFile};
use cevoluneth_model::scheduler::Pair;
use std::collections::BTreeMap;

const KINDS: [(u8, &str); 10] = [
    (17, "opened"),
    (18, "value"),
    (19, "written"),
    (20, "committed"),
    (21, "aborted"),
    (22, "wait"),
    (23, "deadlock"),
    (24, "refused"),
    (25, "open"),
    (26, "holds"),
];

/// What the files of one profile reached in one program.
#[derive(Default)]
struct Reached {
    files: u64,
    requests: u64,
    kinds: BTreeMap<u8, u64>,
    refusals: BTreeMap<u8, u64>,
}

#[derive(Default)]
pub struct Tally {
    rows: BTreeMap<(&'static str, Profile), Reached>,
}

impl Tally {
    pub fn add(&mut self, pair: Pair, profile: Profile, input: &[u8], output: &[u8]) {
        let row = self.rows.entry((pair.name(), profile)).or_default();
        row.files += 1;
        row.requests += RequestFile::read(input).requests.len() as u64;
        let mut rest = output;
        while let Ok((answer, length)) = Answer::read(rest) {
            row.count(rest[0], answer);
            rest = &rest[length..];
        }
    }

    pub fn print(&self) {
        let mut totals: BTreeMap<&str, Reached> = BTreeMap::new();
        for ((program, profile), row) in &self.rows {
            row.print(&format!("{program} {profile:?}"));
            totals.entry(program).or_default().join(row);
        }
        for (program, total) in totals {
            total.print(&format!("{program} in all"));
        }
    }
}

impl Reached {
    fn count(&mut self, kind: u8, answer: Answer) {
        *self.kinds.entry(kind).or_default() += 1;
        if let Answer::Refused { number, .. } = answer {
            *self.refusals.entry(number).or_default() += 1;
        }
    }

    fn join(&mut self, other: &Reached) {
        self.files += other.files;
        self.requests += other.requests;
        for (&kind, count) in &other.kinds {
            *self.kinds.entry(kind).or_default() += count;
        }
        for (&number, count) in &other.refusals {
            *self.refusals.entry(number).or_default() += count;
        }
    }

    fn print(&self, name: &str) {
        let kinds = KINDS.iter().filter_map(|(kind, word)| {
            let count = self.kinds.get(kind)?;
            Some(format!("{word} {count}"))
        });
        let refusals = self
            .refusals
            .iter()
            .map(|(number, count)| format!("{number}: {count}"));
        println!("{name}: {} files, {} requests", self.files, self.requests);
        println!("    {}", kinds.collect::<Vec<_>>().join(", "));
        println!("    refusals {}", refusals.collect::<Vec<_>>().join(", "));
    }
}
