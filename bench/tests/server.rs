//! The plain server on inputs whose answers are known byte by byte.

use cevoluneth_bench::records::INPUT_LIMIT;
use cevoluneth_bench::server::serve;
use cevoluneth_bench::store::{Beside, InPlace};

fn bytes(hex: &str) -> Vec<u8> {
    hex.split_whitespace()
        .map(|byte| u8::from_str_radix(byte, 16).unwrap())
        .collect()
}

#[test]
fn a_commit_waits_for_a_reader() {
    let input = bytes("01 01 02 00 01 00 05 03 00 02 00 05 00 00 00 C8 04 00 02 04 00 01 06 00 02");
    let output = bytes(
        "11 00 01 11 00 02 12 00 01 00 05 00 00 00 00 13 00 02 00 05 16 00 02 00 01 \
         14 00 01 14 00 02 1A 00 05 00 00 00 C8",
    );
    assert_eq!(serve::<InPlace>(&input), output);
    assert_eq!(serve::<Beside>(&input), output);
}

#[test]
fn writers_of_one_item_wait_in_place_only() {
    let input = bytes("01 01 03 00 01 00 07 00 00 00 01 03 00 02 00 07 00 00 00 02");
    let opened = "11 00 01 11 00 02 13 00 01 00 07";
    let waits = bytes(&format!("{opened} 16 00 02 00 01 19 00 01 00 19 00 02 01"));
    let passes = bytes(&format!("{opened} 13 00 02 00 07 19 00 01 00 19 00 02 00"));
    assert_eq!(serve::<InPlace>(&input), waits);
    assert_eq!(serve::<Beside>(&input), passes);
}

#[test]
fn a_ring_of_waits_ends_the_one_that_closes_it() {
    let input = bytes(
        "01 01 03 00 01 00 01 00 00 00 0A 03 00 02 00 02 00 00 00 0B \
         02 00 01 00 02 02 00 02 00 01 06 00 01 04 00 01",
    );
    let output = bytes(
        "11 00 01 11 00 02 13 00 01 00 01 13 00 02 00 02 \
         16 00 01 00 02 17 00 02 12 00 01 00 02 00 00 00 00 14 00 01 1A 00 01 00 00 00 0A",
    );
    assert_eq!(serve::<InPlace>(&input), output);
    assert_eq!(serve::<Beside>(&input), output);
}

#[test]
fn reading_stops_at_the_first_bad_record() {
    let unknown = bytes("01 07 01");
    assert_eq!(
        serve::<InPlace>(&unknown),
        bytes("11 00 01 18 01 01 00 00 00 01 19 00 01 00")
    );
    let cut = bytes("01 04 00");
    assert_eq!(
        serve::<InPlace>(&cut),
        bytes("11 00 01 18 01 02 00 00 00 01 19 00 01 00")
    );
    assert_eq!(
        serve::<InPlace>(&vec![1; INPUT_LIMIT + 1]),
        bytes("18 01 03 00 00 00 00")
    );
}
