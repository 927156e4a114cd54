//! Runs of calls in one call, and the crate's iterators that stand on them: against the Rust's own calls one by one, unchecked, and against a plain fill
//! and a plain merge, which check nothing either.
use crate::clock::{Against, Clock, work};
use crate::columnar::column::rle::{ColumnRle, ColumnScanRle};
use crate::columnar::columnscan::ColumnScan;
use crate::columns::{Runs, rising};
use crate::page::grouped;
use crate::plain;
use loftsplice::{Column, raw};
use std::hint::black_box;

pub const ELEMENTS: u64 = 1_000_000;

pub fn size(runs: &Runs) -> String {
    format!("{} runs, {} elements", runs.ends.len(), grouped(runs.len()))
}

pub fn fresh(runs: &Runs) -> raw::Scan {
    raw::scan_new(&runs.starts, &runs.ends, &runs.steps).scan
}

#[inline(never)]
fn next_run(runs: &Runs, scan: raw::Scan, out: &mut [i64]) -> u64 {
    let ran = raw::scan_next_run(scan, &runs.starts, &runs.ends, &runs.steps, out);
    assert_eq!(ran.refusal, 0);
    ran.count
}

#[inline(never)]
fn nexts(column: &ColumnRle<i64>, out: &mut [i64]) -> u64 {
    let mut scan = ColumnScanRle::new(column);
    let mut count = 0;
    for place in out {
        let Some(value) = scan.next() else { break };
        *place = value;
        count += 1;
    }
    count
}

/// All elements in one call.
fn run_of_nexts(clock: &mut Clock, runs: &Runs) {
    let (column, scan) = (runs.column(), fresh(runs));
    let mut outs = [(); 3].map(|()| vec![0; runs.len() as usize]);
    let [ours, theirs, filled] = &mut outs;
    let Runs { starts, ends, steps } = runs;
    assert_eq!((next_run(runs, scan, ours), nexts(&column, theirs)), (runs.len(), runs.len()));
    plain::fill(starts, ends, steps, 0, runs.len(), filled);
    assert!(ours == theirs && ours == filled, "the same elements");
    clock.race(
        "run of nexts",
        size(runs),
        ("element", runs.len()),
        work(|| next_run(black_box(runs), scan, ours)),
        vec![
            (Against { name: "the Rust's own next, unchecked", target: Some(0.15) }, work(|| nexts(black_box(&column), theirs))),
            (
                Against { name: "plain fill", target: None },
                work(|| plain::fill(black_box(starts), ends, steps, 0, ELEMENTS, black_box(filled))),
            ),
        ],
    );
}

#[inline(never)]
fn seek_run(runs: &Runs, scan: raw::Scan, targets: &[i64], out: &mut [i64]) -> u64 {
    let ran = raw::scan_seek_run(scan, &runs.starts, &runs.ends, &runs.steps, targets, out);
    assert_eq!(ran.refusal, 0);
    ran.count
}

#[inline(never)]
fn seeks(column: &ColumnRle<i64>, targets: &[i64], out: &mut [i64]) -> u64 {
    let mut scan = ColumnScanRle::new(column);
    let mut count = 0;
    for (place, &target) in out.iter_mut().zip(targets) {
        let Some(value) = scan.seek(target) else { break };
        *place = value;
        count += 1;
    }
    count
}

/// Targets from the first element on, so far apart.
fn targets(runs: &Runs, apart: usize) -> Vec<i64> {
    targets_in(runs.at(0), runs.at(runs.len() - 1), apart)
}

/// Targets from one number on, so far apart, a million at most, none above another.
pub fn targets_in(from: i64, to: i64, apart: usize) -> Vec<i64> {
    (from..=to).step_by(apart).take(ELEMENTS as usize).collect()
}

fn run_of_seeks(clock: &mut Clock, runs: &Runs, apart: usize, word: &str) {
    let (column, scan, targets) = (runs.column(), fresh(runs), &targets(runs, apart)[..]);
    let mut outs = [(); 3].map(|()| vec![0; targets.len()]);
    let [ours, theirs, merged] = &mut outs;
    let all = targets.len() as u64;
    assert_eq!((seek_run(runs, scan, targets, ours), seeks(&column, targets, theirs)), (all, all));
    assert_eq!(plain::merge(&runs.starts, &runs.ends, &runs.steps, targets, merged), targets.len());
    assert!(ours == theirs && ours == merged, "the same answers");
    clock.race(
        "run of seeks",
        format!("{}, {word}", size(runs)),
        ("target", all),
        work(|| seek_run(black_box(runs), scan, targets, ours)),
        vec![
            (Against { name: "the Rust's own seek, unchecked", target: Some(0.4) }, work(|| seeks(black_box(&column), targets, theirs))),
            (
                Against { name: "plain merge", target: Some(1.3) },
                work(|| plain::merge(black_box(&runs.starts), &runs.ends, &runs.steps, targets, merged)),
            ),
        ],
    );
}

pub fn lent(runs: &Runs) -> Column<'_> {
    Column::new(&runs.starts, &runs.ends, &runs.steps).expect("a column")
}

#[inline(never)]
fn sum(elements: impl Iterator<Item = i64>) -> i64 {
    let mut sum = 0i64;
    for element in elements {
        sum = sum.wrapping_add(element);
    }
    sum
}

/// A program that goes through all elements, by the crate's iterator and by the Rust's.
fn iterate(clock: &mut Clock, runs: &Runs) {
    let (column, lent) = (runs.column(), lent(runs));
    assert_eq!(sum(lent.iter()), sum(ColumnScanRle::new(&column)));
    clock.race(
        "iterating",
        size(runs),
        ("element", runs.len()),
        work(|| sum(black_box(lent).iter())),
        vec![(Against { name: "the Rust's own scan, unchecked", target: Some(1.0) }, work(|| sum(ColumnScanRle::new(black_box(&column)))))],
    );
}

/// A program that asks about every number in turn, by the crate's iterator over answers and by the Rust's seek.
fn ask_each(clock: &mut Clock, runs: &Runs) {
    let (column, lent, targets) = (runs.column(), lent(runs), &targets(runs, 1)[..]);
    let ours = || {
        let mut scan = lent.scan();
        let answers = scan.seek_each(targets.iter().copied()).zip(targets);
        answers.filter(|(answer, target)| *answer == Ok(Some(**target))).count()
    };
    let theirs = || {
        let mut scan = ColumnScanRle::new(&column);
        targets.iter().filter(|&&target| scan.seek(target) == Some(target)).count()
    };
    assert_eq!(ours(), theirs());
    clock.race(
        "asking about each number",
        size(runs),
        ("target", targets.len() as u64),
        work(ours),
        vec![(Against { name: "the Rust's own seek, unchecked", target: Some(1.0) }, work(theirs))],
    );
}

pub fn measure(clock: &mut Clock) {
    let columns = [16, 256, 4096].map(|runs| rising(runs, ELEMENTS));
    columns.iter().for_each(|runs| run_of_nexts(clock, runs));
    columns.iter().for_each(|runs| run_of_seeks(clock, runs, 1, "every number"));
    columns.iter().for_each(|runs| run_of_seeks(clock, runs, 100, "every hundredth"));
    columns.iter().for_each(|runs| iterate(clock, runs));
    columns.iter().for_each(|runs| ask_each(clock, runs));
}
