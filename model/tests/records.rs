//! Reading and writing records.

mod common;

use cevoluneth_model::records::{request_bytes, Answer, Refusal, Request, RequestFile};
use common::*;

fn all_requests() -> [Request; 6] {
    [
        B,
        r(0x0102, 0x0304),
        w(1, 0xFFFF, i32::MIN),
        c(2),
        a(3),
        again(0xFFFE),
    ]
}

#[test]
fn requests_have_their_lengths() {
    let lengths = all_requests().map(|request| request_bytes(&[request]).len());
    assert_eq!(lengths, [1, 5, 9, 3, 3, 3]);
    assert_eq!(request_bytes(&[r(0x0102, 0x0304)]), [2, 1, 2, 3, 4]);
    assert_eq!(
        request_bytes(&[w(1, 2, -2)]),
        [3, 0, 1, 0, 2, 255, 255, 255, 254]
    );
}

#[test]
fn requests_are_read_as_written() {
    for request in all_requests() {
        let mut bytes = request_bytes(&[request]);
        let length = bytes.len();
        for cut in 0..length {
            assert_eq!(Request::read(&bytes[..cut]), Err(Refusal::CutShort));
        }
        bytes.push(99);
        assert_eq!(Request::read(&bytes), Ok((request, length)));
    }
}

#[test]
fn answers_are_read_as_written() {
    let answers = [
        (opened(0x0102), 3),
        (value(1, 2, i32::MIN), 9),
        (written(3, 4), 5),
        (committed(5), 3),
        (aborted(6), 3),
        (wait(7, 8), 5),
        (deadlock(9), 3),
        (Refusal::NoRoom.at(59_999), 7),
        (
            Answer::StillOpen {
                t: 5,
                waiting: true,
            },
            4,
        ),
        (Answer::Holds { item: 9, value: -1 }, 7),
    ];
    for ((answer, length), kind) in answers.into_iter().zip(17..) {
        let mut bytes = answer.to_bytes();
        assert_eq!((bytes[0], bytes.len()), (kind, length));
        for cut in 0..length {
            assert_eq!(Answer::read(&bytes[..cut]), Err(Refusal::CutShort));
        }
        bytes.push(99);
        assert_eq!(Answer::read(&bytes), Ok((answer, length)));
    }
    assert_eq!(Answer::read(&[25, 0, 1, 2]), Err(Refusal::UnknownKind));
}

#[test]
fn other_kinds_are_unknown() {
    for kind in (0..=255).filter(|kind| !(1..=6).contains(kind)) {
        assert_eq!(Request::read(&[kind]), Err(Refusal::UnknownKind));
    }
    for kind in (0..=255).filter(|kind| !(17..=26).contains(kind)) {
        assert_eq!(Answer::read(&[kind; 9]), Err(Refusal::UnknownKind));
    }
}

#[test]
fn files_stop_at_the_first_refusal() {
    let file = RequestFile::read(&[1, 4, 0, 1, 7, 1]);
    assert_eq!(file.requests, [(0, B), (1, c(1))]);
    assert_eq!(file.stopped, Some((4, Refusal::UnknownKind)));
    let file = RequestFile::read(&[1, 4, 0]);
    assert_eq!(file.stopped, Some((1, Refusal::CutShort)));
    assert_eq!(RequestFile::read(&[]).stopped, None);
    assert_eq!(RequestFile::read(&[1; 60_000]).stopped, None);
    let long = RequestFile::read(&[1; 60_001]);
    assert_eq!(long.stopped, Some((0, Refusal::InputTooLong)));
    assert!(long.requests.is_empty());
}
