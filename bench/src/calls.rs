//! Single calls, each with its checks: against a Rust function that makes the same checks and then calls the Rust's own, and against the Rust's own
//! alone. Each side is an endless sequence of calls, which starts anew after its end.
use crate::clock::{Against, Clock, work};
use crate::columnar::column::rle::{ColumnRle, ColumnScanRle};
use crate::columnar::columnscan::{ColumnScan, ColumnScanCell};
use crate::columnar::operations::filter_interval::{ColumnScanFilterInterval, IntervalBoundConstant};
use crate::columns::{Runs, rising};
use crate::plain;
use crate::standins::Column;
use loftsplice::raw;

/// An answer, or a refusal's number.
type Answer = Result<Option<i64>, u32>;

fn said(answer: raw::Answer) -> Answer {
    if answer.refusal == 0 { Ok((answer.found == 1).then_some(answer.value)) } else { Err(answer.refusal) }
}

/// Refusals 1, 2, 3. Refusal 6 is left out: the Rust's scan can't be outside its window.
fn sound(runs: &Runs) -> Result<(), u32> {
    match plain::check(&runs.starts, &runs.ends, &runs.steps) {
        0 => Ok(()),
        refusal => Err(refusal),
    }
}

/// Refusals 1, 2, 3, 7 over the whole column, which is the window here.
fn sorted(runs: &Runs) -> Result<(), u32> {
    sound(runs)?;
    if plain::rises(&runs.starts, &runs.ends, &runs.steps, 0, runs.len()) { Ok(()) } else { Err(7) }
}

#[inline(never)]
fn checked_get(runs: &Runs, column: &ColumnRle<i64>, index: u64) -> Answer {
    sound(runs)?;
    if index < runs.len() { Ok(Some(column.get(index as usize))) } else { Err(4) }
}

#[inline(never)]
fn checked_next(runs: &Runs, scan: &mut ColumnScanRle<'_, i64>) -> Answer {
    sound(runs)?;
    Ok(scan.next())
}

#[inline(never)]
fn checked_seek(runs: &Runs, scan: &mut ColumnScanRle<'_, i64>, target: i64) -> Answer {
    sorted(runs)?;
    Ok(scan.seek(target))
}

#[inline(never)]
fn checked_filter_next(runs: &Runs, filter: &mut ColumnScanFilterInterval<'_, i64>) -> Answer {
    sorted(runs)?;
    Ok(filter.next())
}

fn fresh(runs: &Runs) -> raw::Scan {
    raw::scan_new(&runs.starts, &runs.ends, &runs.steps).scan
}

/// Compares the answers of a pass over the column and of what begins the next, then times the sides.
fn race<'a>(
    clock: &mut Clock,
    group: &'static str,
    runs: &Runs,
    pass: u64,
    mut port: impl FnMut() -> Answer + 'a,
    mut checked: impl FnMut() -> Answer + 'a,
    mut unchecked: impl FnMut() -> Answer + 'a,
) {
    let mut found = 0;
    for call in 0..pass + 10 {
        let answers = [port(), checked(), unchecked()];
        assert!(answers[0] == answers[1] && answers[0] == answers[2], "{group}, call {call}: {answers:?}");
        found += u64::from(matches!(answers[0], Ok(Some(_))));
    }
    assert_eq!(found, pass - 1 + 10, "all find an element but a pass's last");
    // a filter of 96 bytes goes in and out by value, which shows where there is little to check
    let most = if group == "filter next" && runs.ends.len() == 16 { 1.3 } else { 1.0 };
    clock.race(
        group,
        format!("{} runs", runs.ends.len()),
        ("call", 1),
        work(port),
        vec![
            (Against { name: "the Rust's own behind the same checks", target: Some(most) }, work(checked)),
            (Against { name: "the Rust's own, unchecked", target: None }, work(unchecked)),
        ],
    );
}

/// Elements of the column, in no foreseeable order of their indices.
fn get(clock: &mut Clock, runs: &Runs) {
    let column = runs.column();
    let indices = || {
        let (mut at, length) = (0, runs.len());
        move || {
            at = (at + 0x9E37_79B9) % length;
            at
        }
    };
    let (mut ours, mut theirs, mut bare) = (indices(), indices(), indices());
    let mut port = || said(raw::get(&runs.starts, &runs.ends, &runs.steps, ours()));
    let mut checked = || checked_get(runs, &column, theirs());
    let mut unchecked = || Ok(Some(column.get(bare() as usize)));
    for call in 0..runs.len() {
        let answers: [Answer; 3] = [port(), checked(), unchecked()];
        assert!(answers[0] == answers[1] && answers[0] == answers[2], "get, call {call}: {answers:?}");
    }
    clock.race(
        "get",
        format!("{} runs", runs.ends.len()),
        ("call", 1),
        work(port),
        vec![
            (Against { name: "the Rust's own behind the same checks", target: None }, work(checked)),
            (Against { name: "the Rust's own, unchecked", target: None }, work(unchecked)),
        ],
    );
}

fn scan_next(clock: &mut Clock, runs: &Runs) {
    let column = runs.column();
    let mut ours = fresh(runs);
    let (mut theirs, mut bare) = (ColumnScanRle::new(&column), ColumnScanRle::new(&column));
    race(
        clock,
        "scan next",
        runs,
        runs.len() + 1,
        || {
            let moved = raw::scan_next(ours, &runs.starts, &runs.ends, &runs.steps);
            ours = moved.scan;
            if ours.state == raw::ENDED {
                ours.state = raw::FRESH;
            }
            said(moved.answer)
        },
        || {
            let answer = checked_next(runs, &mut theirs);
            if answer == Ok(None) {
                theirs.reset();
            }
            answer
        },
        || {
            let answer = bare.next();
            if answer.is_none() {
                bare.reset();
            }
            Ok(answer)
        },
    );
}

/// Calls of a seek in a pass: targets that rise through the column, half of them elements, then one beyond it.
const TARGETS: u64 = 61;

fn targets(runs: &Runs) -> Vec<i64> {
    let spread = (0..TARGETS).map(|k| runs.at(k * (runs.len() - 1) / TARGETS) - (k % 2) as i64);
    spread.chain([runs.at(runs.len() - 1) + 1]).collect()
}

fn scan_seek(clock: &mut Clock, runs: &Runs) {
    let column = runs.column();
    let targets = &targets(runs);
    let mut ours = fresh(runs);
    let (mut theirs, mut bare) = (ColumnScanRle::new(&column), ColumnScanRle::new(&column));
    let mut turns = [0; 3].map(|_: i32| targets.iter().cycle());
    let [mine, yours, its] = &mut turns;
    race(
        clock,
        "scan seek",
        runs,
        TARGETS + 1,
        || {
            let moved = raw::scan_seek(ours, &runs.starts, &runs.ends, &runs.steps, *mine.next().expect("endless"));
            ours = moved.scan;
            if ours.state == raw::ENDED {
                ours.state = raw::FRESH;
            }
            said(moved.answer)
        },
        || {
            let answer = checked_seek(runs, &mut theirs, *yours.next().expect("endless"));
            if answer == Ok(None) {
                theirs.reset();
            }
            answer
        },
        || {
            let answer = bare.seek(*its.next().expect("endless"));
            if answer.is_none() {
                bare.reset();
            }
            Ok(answer)
        },
    );
}

/// From the second element up to and with the last but one: Before at a pass's first call, Within at all others.
fn filter_next(clock: &mut Clock, runs: &Runs) {
    let column = runs.column();
    let (low, high) = (runs.at(1), runs.at(runs.len() - 2));
    let kind = [raw::INCLUSIVE as u8];
    let start = raw::filter_new(fresh(runs), raw::INCLUSIVE_WINS, &[low], &kind, &[high], &kind).filter;
    let mut ours = start;
    let cells = [(); 2].map(|()| ColumnScanCell::from(ColumnScanRle::new(&column)));
    let [mut theirs, mut bare] = [&cells[0], &cells[1]].map(|cell| {
        let (low, high) = (IntervalBoundConstant::inclusive(low), IntervalBoundConstant::inclusive(high));
        ColumnScanFilterInterval::new(cell, vec![], vec![], vec![], vec![low], vec![high])
    });
    race(
        clock,
        "filter next",
        runs,
        runs.len() - 1,
        || {
            let sifted = raw::filter_next(ours, &runs.starts, &runs.ends, &runs.steps, raw::Variables::default());
            ours = if sifted.filter.state == raw::AFTER { start } else { sifted.filter };
            said(sifted.answer)
        },
        || {
            let answer = checked_filter_next(runs, &mut theirs);
            if answer == Ok(None) {
                theirs.reset();
                cells[0].reset();
            }
            answer
        },
        || {
            let answer = bare.next();
            if answer.is_none() {
                bare.reset();
                cells[1].reset();
            }
            Ok(answer)
        },
    );
}

pub fn measure(clock: &mut Clock) {
    let columns = [16, 256, 4096].map(|runs| rising(runs, runs * 16));
    columns.iter().for_each(|runs| get(clock, runs));
    columns.iter().for_each(|runs| scan_next(clock, runs));
    columns.iter().for_each(|runs| scan_seek(clock, runs));
    columns.iter().for_each(|runs| filter_next(clock, runs));
}
