//! Files that are made as bytes: cut, changed, random, or of a certain length.

use super::author::Author;
use super::crowds;
use super::rng::Rng;
use crate::records::INPUT_LIMIT;

/// How long the files are that are cut; a cut is made at each of their places.
const CUT_LENGTH: usize = 160;

const LENGTHS: [usize; 6] = [
    INPUT_LIMIT - 1,
    INPUT_LIMIT,
    INPUT_LIMIT + 1,
    INPUT_LIMIT + 2,
    65_536,
    200_000,
];

fn whole(rng: Rng, limit: usize) -> Vec<u8> {
    let mut author = Author::new(rng, limit);
    crowds::small(&mut author);
    author.finish()
}

/// Consecutive indices cut the same file at consecutive places.
pub fn cut(seed: u64, index: usize) -> Vec<u8> {
    let mut bytes = whole(Rng::of(seed, (index / CUT_LENGTH) as u64), CUT_LENGTH);
    bytes.truncate(index % CUT_LENGTH);
    bytes
}

pub fn flipped(mut rng: Rng) -> Vec<u8> {
    let limit = rng.pick(&[60, 200, 1_000, 6_000]);
    let mut bytes = whole(rng.clone(), limit);
    let place = rng.below(bytes.len());
    bytes[place] ^= rng.between(1, 255) as u8;
    bytes
}

pub fn random(mut rng: Rng) -> Vec<u8> {
    let length = rng.pick(&[1, 2, 3, 9, 40, 400, 5_000, INPUT_LIMIT, INPUT_LIMIT + 1]);
    match rng.below(3) {
        0 => (0..length).map(|_| rng.next() as u8).collect(),
        1 => (0..length).map(|_| rng.below(8) as u8).collect(),
        _ => random_records(&mut rng, length),
    }
}

/// Known kinds with random bodies, in which low numbers are frequent.
fn random_records(rng: &mut Rng, length: usize) -> Vec<u8> {
    let mut bytes = vec![1; rng.below(8)];
    while bytes.len() < length {
        let kind = rng.between(1, 6);
        bytes.push(kind as u8);
        for _ in 0..[0, 2, 2, 1, 1, 1][kind - 1] {
            let wild = rng.percent(5);
            bytes.push(if wild { rng.next() as u8 } else { 0 });
            bytes.push(if wild { rng.next() } else { rng.next() % 8 } as u8);
        }
        if kind == 3 {
            bytes.extend((rng.next() as u32).to_be_bytes());
        }
    }
    bytes.truncate(length);
    bytes
}

/// A run that is filled up with begins to an exact length around the limit;
/// every other one of them ends in a commit that is cut short.
pub fn lengths(rng: Rng, index: usize) -> Vec<u8> {
    let length = LENGTHS[index % LENGTHS.len()];
    let mut bytes = whole(rng, INPUT_LIMIT - 100);
    bytes.resize(length, 1);
    if index / LENGTHS.len() % 2 == 1 {
        bytes[length - 1] = 4;
    }
    bytes
}
