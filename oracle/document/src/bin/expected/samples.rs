//! The samples: the numbers of the logs that carry bark, and the same with a run of no logs.
use crate::ask;
use document::calls::{Call, Runs, Said};

/// Room for the largest record.
const ROOM: usize = 57_350;

/// 1 2 3, 5 7 9 11, 12, 20 23 26 29 32, 100 200
pub fn bark() -> Vec<u8> {
    written(&Runs::of(&[(1, 1, 3), (5, 2, 4), (12, 0, 1), (20, 3, 5), (100, 100, 2)]))
}

pub fn damaged() -> Vec<u8> {
    let mut bytes = bark();
    // the length of the third run
    bytes[6 + 14 * 2 + 10..6 + 14 * 3].fill(0);
    bytes
}

/// The record of a sound column.
pub fn written(runs: &Runs) -> Vec<u8> {
    match ask(runs, Call::Write(ROOM)) {
        Said::Written(bytes) => bytes,
        other => panic!("a sound column, and {other}"),
    }
}

/// A record put together by hand, which may be a bad one: its length, its kind, runs (start, step, length).
pub fn record(length: u32, kind: u16, runs: &[(i64, i16, u32)]) -> Vec<u8> {
    let mut bytes = [&length.to_le_bytes()[..], &kind.to_le_bytes()].concat();
    for (start, step, count) in runs {
        bytes.extend([&start.to_le_bytes()[..], &step.to_le_bytes(), &count.to_le_bytes()].concat());
    }
    bytes
}
