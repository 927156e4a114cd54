//! Runs of a filter's calls in one call, and the crate's iterators over a filter that stand on them: against the Rust's own filter, call by call, unchecked,
//! and against a plain fill and a plain merge with the bounds, which check nothing either.
use crate::clock::{Against, Clock, work};
use crate::columnar::column::rle::{ColumnRle, ColumnScanRle};
use crate::columnar::columnscan::{ColumnScan, ColumnScanCell};
use crate::columnar::operations::filter_interval::{ColumnScanFilterInterval, IntervalBoundConstant};
use crate::columns::{Runs, rising};
use crate::plain;
use crate::runs::{ELEMENTS, fresh, lent, size, targets_in};
use loftsplice::{Bound, Filter, raw};
use std::hint::black_box;

/// Elements before the lower bound and after the upper one.
const ASIDE: u64 = 50;

/// A column, and inclusive bounds that a million of its elements meet.
struct Job {
    runs: Runs,
    column: ColumnRle<i64>,
    low: i64,
    high: i64,
}

impl Job {
    fn of(runs: u64) -> Job {
        let runs = rising(runs, ELEMENTS + 2 * ASIDE);
        Job { low: runs.at(ASIDE), high: runs.at(ASIDE + ELEMENTS - 1), column: runs.column(), runs }
    }

    fn size(&self) -> String {
        size(&self.runs)
    }

    fn raw(&self) -> raw::Filter {
        let kind = [raw::INCLUSIVE as u8];
        raw::filter_new(fresh(&self.runs), raw::INCLUSIVE_WINS, &[self.low], &kind, &[self.high], &kind).filter
    }

    fn filter(&self) -> Filter<'_> {
        Filter::new(lent(&self.runs).scan(), &[Bound::Inclusive(self.low)], &[Bound::Inclusive(self.high)]).expect("a filter")
    }

    /// Work with a new filter of the Rust's own.
    #[inline(always)]
    fn theirs<R>(&self, work: impl FnOnce(ColumnScanFilterInterval<'_, i64>) -> R) -> R {
        let cell = ColumnScanCell::from(ColumnScanRle::new(black_box(&self.column)));
        let (low, high) = (IntervalBoundConstant::inclusive(self.low), IntervalBoundConstant::inclusive(self.high));
        work(ColumnScanFilterInterval::new(&cell, vec![], vec![], vec![], vec![low], vec![high]))
    }
}

#[inline(never)]
fn next_run(runs: &Runs, filter: raw::Filter, out: &mut [i64]) -> u64 {
    let ran = raw::filter_next_run(filter, &runs.starts, &runs.ends, &runs.steps, raw::Variables::default(), out);
    assert_eq!(ran.refusal, 0);
    ran.count
}

#[inline(never)]
fn nexts(job: &Job, out: &mut [i64]) -> u64 {
    job.theirs(|mut filter| {
        let mut count = 0;
        for place in out {
            let Some(value) = filter.next() else { break };
            *place = value;
            count += 1;
        }
        count
    })
}

/// All elements that meet the bounds, in one call.
fn run_of_nexts(clock: &mut Clock, job: &Job) {
    let filter = job.raw();
    let mut outs = [(); 3].map(|()| vec![0; ELEMENTS as usize]);
    let [ours, theirs, filled] = &mut outs;
    let Runs { starts, ends, steps } = &job.runs;
    assert_eq!((next_run(&job.runs, filter, ours), nexts(job, theirs)), (ELEMENTS, ELEMENTS));
    plain::fill(starts, ends, steps, ASIDE, ASIDE + ELEMENTS, filled);
    assert!(ours == theirs && ours == filled, "the same elements");
    clock.race(
        "filter's run of nexts",
        job.size(),
        ("element", ELEMENTS),
        work(|| next_run(black_box(&job.runs), filter, ours)),
        vec![
            (Against { name: "the Rust's filter, unchecked", target: Some(0.15) }, work(|| nexts(job, theirs))),
            (
                Against { name: "plain fill", target: None },
                work(|| plain::fill(black_box(starts), ends, steps, ASIDE, ASIDE + ELEMENTS, black_box(filled))),
            ),
        ],
    );
}

#[inline(never)]
fn seek_run(runs: &Runs, filter: raw::Filter, targets: &[i64], out: &mut [i64]) -> u64 {
    let ran = raw::filter_seek_run(filter, &runs.starts, &runs.ends, &runs.steps, targets, raw::Variables::default(), out);
    assert_eq!(ran.refusal, 0);
    ran.count
}

#[inline(never)]
fn seeks(job: &Job, targets: &[i64], out: &mut [i64]) -> u64 {
    job.theirs(|mut filter| {
        let mut count = 0;
        for (place, &target) in out.iter_mut().zip(targets) {
            let Some(value) = filter.seek(target) else { break };
            *place = value;
            count += 1;
        }
        count
    })
}

fn run_of_seeks(clock: &mut Clock, job: &Job, apart: usize, word: &str) {
    let (filter, targets) = (job.raw(), &targets_in(job.low, job.high, apart)[..]);
    let mut outs = [(); 3].map(|()| vec![0; targets.len()]);
    let [ours, theirs, merged] = &mut outs;
    let Runs { starts, ends, steps } = &job.runs;
    let bounds = (job.low, job.high);
    let all = targets.len() as u64;
    assert_eq!((seek_run(&job.runs, filter, targets, ours), seeks(job, targets, theirs)), (all, all));
    assert_eq!(plain::merge_within(starts, ends, steps, targets, bounds, merged), targets.len());
    assert!(ours == theirs && ours == merged, "the same answers");
    clock.race(
        "filter's run of seeks",
        format!("{}, {word}", job.size()),
        ("target", all),
        work(|| seek_run(black_box(&job.runs), filter, targets, ours)),
        vec![
            (Against { name: "the Rust's filter, unchecked", target: Some(0.4) }, work(|| seeks(job, targets, theirs))),
            (
                Against { name: "plain merge with the bounds", target: Some(1.3) },
                work(|| plain::merge_within(black_box(starts), ends, steps, targets, black_box(bounds), merged)),
            ),
        ],
    );
}

/// A program that goes through all elements that meet the bounds, by the crate's iterator and by the Rust's filter.
fn iterate(clock: &mut Clock, job: &Job) {
    let ours = || {
        let mut sum = 0i64;
        for value in black_box(job).filter() {
            sum = sum.wrapping_add(value.expect("the column rises"));
        }
        sum
    };
    let theirs = || {
        job.theirs(|filter| {
            let mut sum = 0i64;
            for value in filter {
                sum = sum.wrapping_add(value);
            }
            sum
        })
    };
    assert_eq!(ours(), theirs());
    clock.race(
        "iterating a filter",
        job.size(),
        ("element", ELEMENTS),
        work(ours),
        vec![(Against { name: "the Rust's filter, unchecked", target: Some(1.0) }, work(theirs))],
    );
}

/// A program that asks a filter about every number in turn, by the crate's iterator over answers and by the Rust's seek.
fn ask_each(clock: &mut Clock, job: &Job) {
    let targets = &targets_in(job.low, job.high, 1)[..];
    let ours = || {
        let mut filter = black_box(job).filter();
        let answers = filter.seek_each(targets.iter().copied()).zip(targets);
        answers.filter(|(answer, target)| *answer == Ok(Some(**target))).count()
    };
    let theirs = || job.theirs(|mut filter| targets.iter().filter(|&&target| filter.seek(target) == Some(target)).count());
    assert_eq!(ours(), theirs());
    clock.race(
        "asking a filter about each number",
        job.size(),
        ("target", targets.len() as u64),
        work(ours),
        vec![(Against { name: "the Rust's filter, unchecked", target: Some(1.0) }, work(theirs))],
    );
}

pub fn measure(clock: &mut Clock) {
    let jobs = [16, 256, 4096].map(Job::of);
    jobs.iter().for_each(|job| run_of_nexts(clock, job));
    jobs.iter().for_each(|job| run_of_seeks(clock, job, 1, "every number"));
    jobs.iter().for_each(|job| run_of_seeks(clock, job, 100, "every hundredth"));
    jobs.iter().for_each(|job| iterate(clock, job));
    jobs.iter().for_each(|job| ask_each(clock, job));
}
