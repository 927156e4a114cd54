//! The program examples_built: columns made from plain lists and from bitmaps, with the whole of the outputs. The places of the three arrays hold 7 before.
use crate::records::{filled, output, places};
use crate::{ask, told};
use document::calls::{Call, Runs, Said};

pub fn built() -> String {
    let mut out = String::from("== built\n");
    for (name, values, rooms) in [
        ("no value: ", &[][..], [3; 3]),
        ("no value, no places: ", &[], [0; 3]),
        ("one value: ", &[-4], [3; 3]),
        ("two equal: ", &[5, 5], [3; 3]),
        ("a falling pair: ", &[10, 5], [3; 3]),
    ] {
        building(&mut out, name, values, rooms);
    }
    longer(&mut out);
    edges(&mut out);
    out
}

fn building(out: &mut String, name: &str, values: &[i64], rooms: [usize; 3]) {
    let (answer, runs) = match ask(&Runs::default(), Call::Build(values.to_vec(), rooms)) {
        Said::Built(runs) => (format!("{} runs", runs.ends.len()), runs),
        other => (told(&other), Runs::default()),
    };
    *out += &format!("{name}{answer}{}\n", places(&filled(3, &runs)));
}

/// With room, into arrays that differ in length, and with a place too few.
fn longer(out: &mut String) {
    *out += "nine values:\n";
    for rooms in [[3, 3, 3], [2, 3, 3], [3, 2, 3], [3, 3, 2]] {
        building(out, "", &[10, 15, 20, 25, 30, 31, 40, 140, 240], rooms);
    }
    *out += "three values:\n";
    for rooms in [[2, 3, 2], [3, 2, 3], [1, 2, 3]] {
        building(out, "", &[10, 15, 31], rooms);
    }
}

/// The edges of a step, and of an i64.
fn edges(out: &mut String) {
    for apart in [32767, 32768, -32768, -32769] {
        building(out, &format!("{apart} apart: "), &[0, apart], [3; 3]);
    }
    building(out, "the least, then the greatest: ", &[i64::MIN, i64::MAX], [3; 3]);
    building(out, "the greatest, then the least: ", &[i64::MAX, i64::MIN], [3; 3]);
}

/// Bitmaps as columns, and back; the bytes hold EE before.
pub fn mapped() -> String {
    let mut out = String::from("== mapped\n");
    for (name, bytes, count) in [
        ("E5 01, 10 records: ", &[0xE5, 0x01][..], 10),
        ("E5 01, 11 records: ", &[0xE5, 0x01], 11),
        ("E5 FD, 10 records: ", &[0xE5, 0xFD], 10),
        ("E5 FD, 11 records: ", &[0xE5, 0xFD], 11),
        ("E5, 9 records: ", &[0xE5], 9),
        ("E5, 524289 records: ", &[0xE5], 524_289),
        ("four runs: ", &[0x2B, 0x89], 16),
    ] {
        importing(&mut out, name, bytes, count);
    }
    for (name, run, count) in [
        ("to the last record: ", (3, 2, 4), 10),
        ("past the last record: ", (4, 2, 4), 10),
        ("below record 0: ", (-1, 1, 2), 10),
        ("does not rise: ", (4, 0, 2), 10),
        ("does not rise, past the last record: ", (12, -1, 2), 10),
        ("four bytes: ", (3, 0, 1), 25),
    ] {
        output(&mut out, name, &Runs::of(&[run]), Call::Export(count, 3), 3);
    }
    out
}

/// What is refused has no run, and goes back as no record.
fn importing(out: &mut String, name: &str, bytes: &[u8], count: u64) {
    let (answer, runs) = match ask(&Runs::default(), Call::Import(bytes.to_vec(), count, [3; 3])) {
        Said::Imported { ones, runs } => (format!("{} runs, {ones} ones", runs.ends.len()), runs),
        other => (told(&other), Runs::default()),
    };
    *out += &format!("{name}{answer}{}\n", places(&filled(3, &runs)));
    output(out, "back: ", &runs, Call::Export(count, 3), 3);
}
