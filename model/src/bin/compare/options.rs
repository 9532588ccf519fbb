use crate::program::Program;

pub const USAGE: &str = "compare SO1 SO2 [--files N] [--seed S]\n\
    compare --self [--files N] [--seed S]";

const DEFAULT_FILES: usize = 2_000;
const DEFAULT_SEED: u64 = 1;

pub struct Options {
    pub programs: [Program; 2],
    pub files: usize,
    pub seed: u64,
}

impl Options {
    pub fn parse(mut words: impl Iterator<Item = String>) -> Result<Options, String> {
        let mut paths = Vec::new();
        let mut model = false;
        let mut files = DEFAULT_FILES;
        let mut seed = DEFAULT_SEED;
        while let Some(word) = words.next() {
            match word.as_str() {
                "--self" => model = true,
                "--files" => files = number(&word, words.next())? as usize,
                "--seed" => seed = number(&word, words.next())?,
                _ if word.starts_with("--") => return Err(format!("unknown option {word}")),
                _ => paths.push(word),
            }
        }
        let programs = match (model, &paths[..]) {
            (true, []) => [Program::Model, Program::Model],
            (false, [so1, so2]) => [Program::at(so1)?, Program::at(so2)?],
            _ => return Err("either two programs or --self".to_string()),
        };
        Ok(Options {
            programs,
            files,
            seed,
        })
    }
}

fn number(option: &str, word: Option<String>) -> Result<u64, String> {
    let word = word.ok_or_else(|| format!("{option} needs a number"))?;
    word.parse()
        .map_err(|error| format!("{option} {word}: {error}"))
}
