//! The program examples_records: records written and read, with the whole of the outputs. The places of the three arrays hold 7 before, the bytes EE.
use crate::samples::{record, written};
use crate::{arrays, ask, told};
use document::calls::{Call, Runs, Said};

const LEAST: i64 = i64::MIN;
const RUN: (i64, i16, u32) = (10, -5, 2);

pub fn stored() -> String {
    let mut out = String::from("== stored\n");
    writings(&mut out);
    one_run(&mut out);
    two_runs(&mut out);
    heads(&mut out);
    runs(&mut out);
    largest(&mut out);
    out
}

fn writings(out: &mut String) {
    let one = || arrays(&[10], &[2], &[-5]);
    for (name, column, room) in [
        ("one run (10,-5,2): ", one(), 24),
        ("", one(), 20),
        ("", one(), 19),
        ("no runs: ", Runs::default(), 8),
        ("lengths differ: ", arrays(&[1, 2], &[1], &[0]), 4),
        ("an end of 0: ", arrays(&[1], &[0], &[0]), 4),
        ("out of reach: ", arrays(&[i64::MAX], &[2], &[1]), 4),
        ("4097 runs, each of which ends at 1: ", arrays(&[0; 4097], &[1; 4097], &[0; 4097]), 4),
    ] {
        writing(out, name, &column, room);
    }
}

fn writing(out: &mut String, name: &str, column: &Runs, room: usize) {
    output(out, name, column, Call::Write(room), room);
}

/// A call that writes into so many bytes, and all of them.
pub fn output(out: &mut String, name: &str, column: &Runs, call: Call, room: usize) {
    let mut bytes = vec![0xEE; room];
    let answer = match ask(column, call) {
        Said::Written(b) => {
            bytes[..b.len()].copy_from_slice(&b);
            format!("{} bytes", b.len())
        }
        other => told(&other),
    };
    let shown: String = bytes.iter().map(|b| format!(" {b:02x}")).collect();
    *out += &format!("{name}{answer}{shown}\n");
}

/// Three arrays of so many places, which hold 7 before, and then these runs.
pub fn filled(places: usize, runs: &Runs) -> Runs {
    let n = runs.ends.len();
    let mut held = arrays(&vec![7; places], &vec![7; places], &vec![7; places]);
    held.starts[..n].copy_from_slice(&runs.starts);
    held.ends[..n].copy_from_slice(&runs.ends);
    held.steps[..n].copy_from_slice(&runs.steps);
    held
}

/// What reading answers, and the three arrays of so many places, of which only `rooms` are lent.
fn answered(bytes: &[u8], places: usize, rooms: [usize; 3]) -> (String, Runs) {
    let (answer, runs) = match ask(&Runs::default(), Call::Read(bytes.to_vec(), rooms)) {
        Said::Read { used, runs } => (format!("{} runs, {used} bytes used", runs.ends.len()), runs),
        other => (told(&other), Runs::default()),
    };
    (answer, filled(places, &runs))
}

fn place(runs: &Runs, r: usize) -> String {
    format!(" ({},{},{})", runs.starts[r], runs.ends[r], runs.steps[r])
}

/// All places of three arrays that are equally long.
pub fn places(held: &Runs) -> String {
    (0..held.ends.len()).map(|r| place(held, r)).collect()
}

fn reading(out: &mut String, name: &str, bytes: &[u8], rooms: [usize; 3]) {
    let (answer, held) = answered(bytes, 3, rooms);
    *out += &format!("{name}{answer}{}\n", places(&held));
}

/// Document 01's own bytes: with room, with too little, and cut after each byte.
fn one_run(out: &mut String) {
    let one = [0x10, 0, 0, 0, 1, 0, 0x0A, 0, 0, 0, 0, 0, 0, 0, 0xFB, 0xFF, 2, 0, 0, 0];
    *out += "one run:\n";
    for rooms in [[3, 3, 3], [1, 1, 1], [0, 3, 3], [3, 0, 3], [3, 3, 0]] {
        reading(out, "", &one, rooms);
    }
    for k in 0..one.len() {
        reading(out, &format!("cut after {k}: "), &one[..k], [3; 3]);
    }
}

/// Into arrays that differ in length, and back; bytes follow the record.
fn two_runs(out: &mut String) {
    let mut two = record(30, 1, &[RUN, (6, 1, 3)]);
    two.extend([9, 9]);
    *out += "two runs:\n";
    for rooms in [[2, 3, 2], [3, 2, 3], [1, 2, 3]] {
        reading(out, "", &two, rooms);
    }
    let (answer, held) = answered(&two, 2, [2; 3]);
    writing(out, &format!("{answer}, back: "), &held, 36);
}

/// 13, 11 and 12, and which of them comes first.
fn heads(out: &mut String) {
    for (name, length, kind, last) in [
        ("length 1: ", 1, 1, 0),
        ("length 2, bytes after it: ", 2, 1, 9),
        ("length 3: ", 3, 1, 0),
        ("length 3, kind 2: ", 3, 2, 0),
        ("length 57346, cut: ", 57346, 1, 0),
        ("length 57347, cut: ", 57347, 1, 0),
        ("length 16777218, cut: ", 16_777_218, 1, 0),
    ] {
        let mut bytes = record(length, kind, &[]);
        bytes.push(last);
        reading(out, name, &bytes, [3; 3]);
    }
    reading(out, "kind 2: ", &record(16, 2, &[RUN]), [3; 3]);
    reading(out, "kind 257: ", &record(16, 257, &[RUN]), [3; 3]);
}

/// 2 and 3, after 10.
fn runs(out: &mut String) {
    let empty = record(16, 1, &[(10, -5, 0)]);
    reading(out, "run length 0: ", &empty, [3; 3]);
    reading(out, "run length 0, no room: ", &empty, [3, 3, 0]);
    let over = record(30, 1, &[(0, 0, u32::MAX), (LEAST, -1, 1)]);
    reading(out, "run lengths 4294967295 and 1: ", &over, [3; 3]);
    reading(out, "out of reach, then run length 0: ", &record(30, 1, &[(LEAST, -1, 2), (0, 0, 0)]), [3; 3]);
    reading(out, "out of reach: ", &record(30, 1, &[(LEAST, -1, 2), (0, 0, 1)]), [3; 3]);
}

/// 4,096 runs, written, read and written back.
fn largest(out: &mut String) {
    let ends: Vec<u64> = (1..=4096).collect();
    let bytes = written(&arrays(&[LEAST; 4096], &ends, &[-32768; 4096]));
    let (answer, held) = answered(&bytes, 4096, [4096; 3]);
    let again = written(&held);
    let same = if again == bytes { "the same" } else { "others" };
    *out += &format!("4096 runs: {} bytes\n{answer}{}\n{} bytes, {same}\n", bytes.len(), place(&held, 4095), again.len());
}
