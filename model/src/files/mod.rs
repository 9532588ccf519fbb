//! Request files that a hostile centre could write, from a seed.

mod author;
mod crowds;
mod limits;
mod raw;
mod rng;
mod wrong;

use crate::records::INPUT_LIMIT;
use author::Author;
use rng::Rng;

#[derive(Clone, Copy, Debug, PartialEq, Eq, PartialOrd, Ord)]
pub enum Profile {
    Empty,
    Small,
    Hot,
    Mixed,
    Chains,
    Readers,
    LockList,
    Room,
    ManyOpen,
    Begins,
    States,
    Numbers,
    Edges,
    Cut,
    Flipped,
    Random,
    Lengths,
}

impl Profile {
    /// Each profile with its part in a round of files.
    const PARTS: [(Profile, usize); 16] = [
        (Profile::Small, 16),
        (Profile::Hot, 6),
        (Profile::Mixed, 5),
        (Profile::Chains, 6),
        (Profile::Readers, 4),
        (Profile::LockList, 2),
        (Profile::Room, 3),
        (Profile::ManyOpen, 3),
        (Profile::Begins, 2),
        (Profile::States, 6),
        (Profile::Numbers, 4),
        (Profile::Edges, 4),
        (Profile::Cut, 16),
        (Profile::Flipped, 12),
        (Profile::Random, 8),
        (Profile::Lengths, 2),
    ];
}

/// One file to be made.
#[derive(Clone, Copy, Debug, PartialEq, Eq)]
pub struct Plan {
    pub profile: Profile,
    pub index: usize,
}

/// Which files are made if there are to be `count` of them.
pub fn plan(count: usize) -> Vec<Plan> {
    let empty = Plan {
        profile: Profile::Empty,
        index: 0,
    };
    let rounds = (0..).flat_map(|round| {
        Profile::PARTS.into_iter().flat_map(move |(profile, part)| {
            (0..part).map(move |one| Plan {
                profile,
                index: round * part + one,
            })
        })
    });
    std::iter::once(empty).chain(rounds).take(count).collect()
}

impl Plan {
    pub fn bytes(self, seed: u64) -> Vec<u8> {
        let Plan { profile, index } = self;
        let mut rng = Rng::of(seed, ((profile as u64) << 32) | index as u64);
        match profile {
            Profile::Empty => Vec::new(),
            Profile::Cut => raw::cut(seed, index),
            Profile::Flipped => raw::flipped(rng),
            Profile::Random => raw::random(rng),
            Profile::Lengths => raw::lengths(rng, index),
            _ => {
                let limit = profile.limit(&mut rng);
                let mut author = Author::new(rng, limit);
                profile.write(&mut author, index);
                author.finish()
            }
        }
    }
}

impl Profile {
    /// How long a file may get.
    fn limit(self, rng: &mut Rng) -> usize {
        match self {
            Profile::Small => rng.between(40, 400),
            Profile::LockList => rng.pick(&[25_000, INPUT_LIMIT]),
            Profile::Room => rng.pick(&[12_000, 30_000, INPUT_LIMIT]),
            Profile::Begins => INPUT_LIMIT,
            Profile::States | Profile::Numbers | Profile::Edges => rng.between(500, 8_000),
            _ => match rng.below(10) {
                0 => INPUT_LIMIT,
                1..=3 => rng.between(10_000, 30_000),
                _ => rng.between(3_000, 10_000),
            },
        }
    }

    fn write(self, author: &mut Author, index: usize) {
        match self {
            Profile::Small => crowds::small(author),
            Profile::Hot => crowds::hot(author),
            Profile::Mixed => crowds::mixed(author),
            Profile::Chains => crowds::chains(author, 2 + index % 63),
            Profile::Readers => crowds::readers(author),
            Profile::LockList => limits::lock_list(author),
            Profile::Room => limits::room(author),
            Profile::ManyOpen => limits::many_open(author),
            Profile::Begins => limits::begins(author, index),
            Profile::States => wrong::states(author),
            Profile::Numbers => wrong::numbers(author),
            Profile::Edges => wrong::edges(author),
            Profile::Empty
            | Profile::Cut
            | Profile::Flipped
            | Profile::Random
            | Profile::Lengths => {}
        }
    }
}
