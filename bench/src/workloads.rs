//! The inputs. Each is made while the plain scheduler answers, so that it knows who waits.

mod clients;
mod maker;
mod scripts;

use crate::random::Random;
use crate::records::INPUT_LIMIT;
use crate::store::Store;
use clients::Clients;
use maker::Maker;

/// One input, and how many requests it holds.
pub struct Workload {
    pub name: &'static str,
    pub bytes: Vec<u8>,
    pub requests: usize,
}

const SHORT: Clients = Clients {
    count: 4,
    items: 1024,
    reads: 2,
    writes: 2,
};

const HOT: Clients = Clients {
    count: 32,
    items: 4,
    reads: 2,
    writes: 2,
};

/// All inputs for the server over the store, from one seed; the empty one is the first.
pub fn all<S: Store>(seed: u64) -> Vec<Workload> {
    vec![
        make::<S>("empty input", seed, |_| ()),
        make::<S>("begins and aborts", seed, scripts::begins_and_aborts),
        make::<S>("short transactions", seed, |maker| SHORT.run(maker)),
        make::<S>("hot items", seed, |maker| HOT.run(maker)),
        make::<S>("long lock list", seed, scripts::long_list),
        make::<S>("chains of waits", seed, scripts::chains),
        make::<S>(
            "commits behind readers",
            seed,
            scripts::commits_behind_readers,
        ),
        make::<S>("full room", seed, scripts::full_room),
        make::<S>("unknown transactions", seed, scripts::unknown_transactions),
        make::<S>("random requests", seed, scripts::random_requests),
        random_bytes(seed),
    ]
}

fn make<S: Store>(name: &'static str, seed: u64, script: impl Fn(&mut Maker<S>)) -> Workload {
    let mut maker = Maker::new(seed);
    script(&mut maker);
    maker.finish(name)
}

fn random_bytes(seed: u64) -> Workload {
    let mut random = Random::new(seed);
    let bytes: Vec<u8> = (0..INPUT_LIMIT).map(|_| random.draw() as u8).collect();
    let requests = maker::count(&bytes);
    Workload {
        name: "random bytes",
        bytes,
        requests,
    }
}
