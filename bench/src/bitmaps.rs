//! Presence bitmaps, imported and exported, against a plain Rust of the same work.
use crate::bits;
use crate::building::{places, random};
use crate::clock::{Against, Clock, Work, work};
use crate::columns::Runs;
use crate::page::grouped;
use loftsplice::raw;
use std::hint::black_box;

const RECORDS: u64 = 524_288;
const PLAIN: Against = Against { name: "plain Rust, by words", target: Some(1.25) };

fn port_import(bytes: &[u8], count: u64, to: &mut Runs) -> Result<(usize, u64), u32> {
    let imported = raw::import(bytes, count, &mut to.starts, &mut to.ends, &mut to.steps);
    if imported.refusal == 0 { Ok((imported.runs as usize, imported.ones)) } else { Err(imported.refusal) }
}

fn rust_import(bytes: &[u8], count: u64, to: &mut Runs) -> Result<(usize, u64), u32> {
    bits::import(bytes, count, &mut to.starts, &mut to.ends, &mut to.steps)
}

fn port_export(runs: &Runs, count: u64, out: &mut [u8]) -> Result<usize, u32> {
    let exported = raw::export(&runs.starts, &runs.ends, &runs.steps, count, out);
    if exported.refusal == 0 { Ok(exported.bytes as usize) } else { Err(exported.refusal) }
}

fn rust_export(runs: &Runs, count: u64, out: &mut [u8]) -> Result<usize, u32> {
    bits::export(&runs.starts, &runs.ends, &runs.steps, count, out)
}

/// Both say and leave the same for each small count, and into each room.
fn alike(bytes: &[u8]) {
    for count in 0..=8 * bytes.len() as u64 + 1 {
        for room in [0, 1, bytes.len(), 8 * bytes.len()] {
            let mut to = [places(room), places(room)];
            let [ours, theirs] = &mut to;
            let imported = port_import(bytes, count, ours);
            assert_eq!(imported, rust_import(bytes, count, theirs));
            assert_eq!(ours, theirs);
            let Ok((runs, _)) = imported else { continue };
            let column = cut(ours, runs);
            for (count, room) in [(count, bytes.len()), (count, 0), (count.saturating_sub(1), bytes.len()), (count + 9, bytes.len())] {
                let mut outs = [vec![0xAA; room], vec![0xAA; room]];
                let [ours, theirs] = &mut outs;
                assert_eq!(port_export(&column, count, ours), rust_export(&column, count, theirs));
                assert_eq!(ours, theirs);
            }
        }
    }
}

/// The first runs alone.
fn cut(runs: &Runs, count: usize) -> Runs {
    Runs { starts: runs.starts[..count].into(), ends: runs.ends[..count].into(), steps: runs.steps[..count].into() }
}

/// An operation on each of some, one after the other, as work.
fn each<'a, T, R>(all: &'a [T], mut operation: impl FnMut(&T) -> R + 'a) -> Work<'a> {
    work(move || {
        for one in black_box(all) {
            black_box(operation(one));
        }
    })
}

/// Bitmaps of one kind, one after the other: several where chance made them, since of one that is read again and again the processor learns each turn.
fn race(clock: &mut Clock, bitmaps: &[Vec<u8>], word: &str) {
    alike(&bitmaps[0][..40]);
    let count = 8 * bitmaps[0].len() as u64;
    let bytes = ("byte", bitmaps.iter().map(|bytes| bytes.len() as u64).sum());
    let mut to = [places(4096), places(4096)];
    let [ours, theirs] = &mut to;
    let mut columns = Vec::new();
    let mut came = String::new();
    for bytes in bitmaps {
        let imported = port_import(bytes, count, ours);
        assert_eq!(rust_import(bytes, count, theirs), imported);
        assert_eq!(ours, theirs);
        came = match imported {
            Ok((1, _)) => "1 run".into(),
            Ok((runs, _)) => format!("{} runs", grouped(runs as u64)),
            Err(refusal) => format!("refused {refusal}"),
        };
        columns.extend(imported.ok().map(|(runs, _)| cut(ours, runs)));
    }
    let size = format!("{} records, {word}: {came}", grouped(count));
    clock.race(
        "bitmap import",
        size.clone(),
        bytes,
        each(bitmaps, |bytes| port_import(bytes, count, black_box(ours))),
        vec![(PLAIN, each(bitmaps, |bytes| rust_import(bytes, count, black_box(theirs))))],
    );
    if columns.is_empty() {
        return;
    }
    let mut outs = [vec![0; bitmaps[0].len()], vec![0; bitmaps[0].len()]];
    let [ours, theirs] = &mut outs;
    for (bytes, column) in bitmaps.iter().zip(&columns) {
        assert_eq!((port_export(column, count, ours), rust_export(column, count, theirs)), (Ok(bytes.len()), Ok(bytes.len())));
        assert!(ours == bytes && theirs == bytes, "the same bitmap");
    }
    clock.race(
        "bitmap export",
        size,
        bytes,
        each(&columns, |column| port_export(column, count, black_box(ours))),
        vec![(PLAIN, each(&columns, |column| rust_export(column, count, black_box(theirs))))],
    );
}

/// So many bitmaps in which each record is present by chance, so many of a hundred.
fn by_chance(bitmaps: usize, records: u64, of_hundred: i64) -> Vec<Vec<u8>> {
    let chances = random(bitmaps * records as usize, |word| (word >> 8) as i64 % 100);
    let byte = |eight: &[i64]| eight.iter().rev().fold(0, |byte, &chance| 2 * byte + u8::from(chance < of_hundred));
    chances.chunks(records as usize).map(|one| one.chunks(8).map(byte).collect()).collect()
}

pub fn measure(clock: &mut Clock) {
    for (byte, word) in [(0, "empty"), (0xFF, "full"), (0x55, "alternating")] {
        race(clock, &[vec![byte; RECORDS as usize / 8]], word);
    }
    race(clock, &by_chance(8, RECORDS, 1), "1 % by chance");
    race(clock, &by_chance(32, 16_384, 50), "50 % by chance");
    race(clock, &by_chance(8, RECORDS, 50), "50 % by chance");
}
