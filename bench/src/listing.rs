//! The batch listing, against the Rust's filter loop and against a plain fill of the same elements.
use crate::clock::{Against, Clock, work};
use crate::columnar::column::rle::{ColumnRle, ColumnScanRle};
use crate::columnar::columnscan::ColumnScanCell;
use crate::columnar::operations::filter_interval::{ColumnScanFilterInterval, IntervalBoundConstant};
use crate::columns::{Runs, rising};
use crate::plain;
use loftsplice::raw;
use std::hint::black_box;

/// Elements before the lower bound and after the upper one.
const ASIDE: u64 = 50;

struct Job {
    runs: Runs,
    from: Vec<u64>,
    to: Vec<u64>,
    /// The bounds: inclusive below, exclusive above.
    low: i64,
    high: i64,
    elements: u64,
}

/// So many elements within the bounds, in so many windows one after the other.
fn job(runs: u64, elements: u64, windows: u64) -> Job {
    let all = elements + 2 * ASIDE;
    let runs = rising(runs, all);
    let edge = |w: u64| all * w / windows;
    Job {
        low: runs.at(ASIDE),
        high: runs.at(ASIDE + elements),
        from: (0..windows).map(edge).collect(),
        to: (1..=windows).map(edge).collect(),
        elements,
        runs,
    }
}

#[inline(never)]
fn port(job: &Job, out: &mut [i64], counts: &mut [u64]) -> u64 {
    let Runs { starts, ends, steps } = &job.runs;
    let (inclusive, exclusive) = ([raw::INCLUSIVE as u8], [raw::EXCLUSIVE as u8]);
    let mode = raw::INCLUSIVE_WINS;
    let listed = raw::list(starts, ends, steps, &job.from, &job.to, mode, &[job.low], &inclusive, &[job.high], &exclusive, out, counts);
    assert_eq!(listed.refusal, 0);
    listed.sum
}

/// The Rust's own: a scan narrowed to each window, a new filter over it, `next` until there is none.
#[inline(never)]
fn filter_loop(job: &Job, column: &ColumnRle<i64>, out: &mut [i64], counts: &mut [u64]) -> u64 {
    let cell = ColumnScanCell::from(ColumnScanRle::new(column));
    let mut rest = out.iter_mut();
    let mut sum = 0;
    for ((&from, &to), count) in job.from.iter().zip(&job.to).zip(counts) {
        cell.narrow(from as usize..to as usize);
        let (low, high) = (IntervalBoundConstant::inclusive(job.low), IntervalBoundConstant::exclusive(job.high));
        let filter = ColumnScanFilterInterval::new(&cell, vec![], vec![], vec![], vec![low], vec![high]);
        *count = 0;
        for value in filter {
            *rest.next().expect("room") = value;
            *count += 1;
        }
        sum += *count;
    }
    sum
}

fn race(clock: &mut Clock, runs: u64, elements: u64, windows: u64, targets: [Option<f64>; 2]) {
    let job = job(runs, elements, windows);
    let column = job.runs.column();
    let places = elements as usize;
    let mut outs = [(); 3].map(|()| (vec![0; places], vec![0; windows as usize]));
    let [ours, theirs, filled] = &mut outs;
    assert_eq!(port(&job, &mut ours.0, &mut ours.1), elements);
    assert_eq!(filter_loop(&job, &column, &mut theirs.0, &mut theirs.1), elements);
    let Runs { starts, ends, steps } = &job.runs;
    plain::fill(starts, ends, steps, ASIDE, ASIDE + elements, &mut filled.0);
    assert!(ours.0 == theirs.0 && ours.1 == theirs.1 && ours.0 == filled.0, "the same elements");
    let job = &job;
    clock.race(
        "listing",
        format!("{runs} runs, {} elements, {windows} window{}", crate::page::grouped(job.elements), if windows == 1 { "" } else { "s" }),
        ("element", elements),
        work(|| port(black_box(job), &mut ours.0, &mut ours.1)),
        vec![
            (
                Against { name: "the Rust's filter loop", target: targets[0] },
                work(|| filter_loop(black_box(job), &column, &mut theirs.0, &mut theirs.1)),
            ),
            (
                Against { name: "plain fill", target: targets[1] },
                work(|| plain::fill(black_box(starts), ends, steps, ASIDE, ASIDE + elements, black_box(&mut filled.0))),
            ),
        ],
    );
}

pub fn measure(clock: &mut Clock) {
    let targets = [Some(0.1), Some(1.5)];
    for runs in [16, 256, 4096] {
        race(clock, runs, 1_000_000, 1, targets);
    }
    for elements in [10_000, 100_000] {
        race(clock, 256, elements, 1, [None; 2]);
    }
    for windows in [16, 256] {
        race(clock, 256, 1_000_000, windows, [None; 2]);
    }
}
