//! Files of requests that are out of place.

use super::author::{Author, Mix};
use crate::records::Request;

const EDGE_ITEMS: [u16; 12] = [
    0, 1, 255, 256, 1_022, 1_023, 1_024, 1_025, 32_767, 32_768, 65_534, 65_535,
];

/// Numbers that were never opened, are closed, or cannot be.
pub fn numbers(author: &mut Author) {
    let mix = Mix {
        items: vec![0, 1, 2, 1_023, 1_024],
        crowd: author.rng.between(1, 10),
        reads: 30,
        writes: 30,
        commits: 25,
        wrong: 60,
    };
    author.wander(&mix);
}

/// Items at and over the edge, with extreme values.
pub fn edges(author: &mut Author) {
    let mix = Mix {
        items: EDGE_ITEMS.to_vec(),
        crowd: author.rng.between(2, 12),
        reads: 35,
        writes: 40,
        commits: 20,
        wrong: 10,
    };
    author.wander(&mix);
}

/// Every kind of request to a transaction in every state it can be in.
pub fn states(author: &mut Author) {
    while author.room() > 200 {
        let Some(t) = some_state(author) else {
            return;
        };
        let item = author.rng.pick(&[5, 6, 7, 1_024]);
        for _ in 0..author.rng.between(1, 3) {
            let request = author.any_request(t, item);
            author.ask(request);
        }
        if author.rng.percent(70) {
            author.drain();
        }
    }
}

/// Brings a new transaction into some state, with a partner that may block it.
fn some_state(author: &mut Author) -> Option<u16> {
    if author.open().len() > 40 {
        author.drain();
    }
    let t = author.begin()?;
    let partner = author.begin()?;
    match author.rng.below(10) {
        0 => {}
        1 => {
            author.read(t, 5);
            author.write(t, 6);
        }
        2 => {
            author.write(partner, 5);
            author.read(t, 5);
        }
        3 => {
            author.write(partner, 5);
            author.write(t, 5);
        }
        4 => {
            author.read(partner, 5);
            author.write(t, 5);
            author.commit(t);
        }
        5 => {
            author.write(partner, 5);
            author.read(t, 5);
            author.commit(partner);
        }
        6 => {
            author.read(partner, 5);
            author.write(t, 5);
            author.commit(t);
            author.abort(partner);
        }
        7 => {
            author.commit(t);
        }
        8 => {
            author.abort(t);
        }
        _ => {
            author.write(t, 5);
            author.write(partner, 6);
            author.read(partner, 5);
            author.ask(Request::Read { t, item: 6 });
        }
    }
    Some(t)
}
