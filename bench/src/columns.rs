//! The inputs, the same for both sides.
use crate::columnar::column::rle::ColumnRle;
use crate::columnar::columnbuilder::rle::RleElement;
use crate::datatypes::run_length_encodable::IntStep;
use std::num::NonZeroUsize;

/// Three arrays.
#[derive(Clone, Debug, Default, PartialEq, Eq)]
pub struct Runs {
    pub starts: Vec<i64>,
    pub ends: Vec<u64>,
    pub steps: Vec<i16>,
}

impl Runs {
    pub fn push(&mut self, start: i64, step: i16, length: u64) {
        self.starts.push(start);
        self.ends.push(self.len() + length);
        self.steps.push(step);
    }

    pub fn len(&self) -> u64 {
        self.ends.last().copied().unwrap_or(0)
    }

    /// The element at an index, worked out plainly.
    pub fn at(&self, index: u64) -> i64 {
        let run = self.ends.partition_point(|&end| end <= index);
        let first = if run == 0 { 0 } else { self.ends[run - 1] };
        self.starts[run] + i64::from(self.steps[run]) * (index - first) as i64
    }

    /// The Rust's own column of the same runs.
    pub fn column(&self) -> ColumnRle<i64> {
        let lengths = self.ends.iter().scan(0, |last, &end| Some(end - std::mem::replace(last, end)));
        let elements = self.starts.iter().zip(&self.steps).zip(lengths).map(|((&value, &step), length)| RleElement {
            value,
            length: NonZeroUsize::new(length as usize).expect("no run is empty"),
            increment: IntStep::from(step),
        });
        ColumnRle::from_rle_elements(elements.collect())
    }
}

/// A rising column of so many runs and elements, steps 1 to 7, with gaps between the runs; about 0, far from both edges of i64.
pub fn rising(runs: u64, elements: u64) -> Runs {
    let mut made = Runs::default();
    let mut start = -1_000_000;
    for run in 0..runs {
        let length = elements * (run + 1) / runs - elements * run / runs;
        let step = (run % 7 + 1) as i16;
        made.push(start, step, length);
        start += i64::from(step) * (length as i64 - 1) + 5;
    }
    made
}

/// A rising column, 64 elements a run, in which the runs that are named hold one element and have step 0, as a run of one is built; the last is whole.
pub fn with_ones(runs: u64, alone: impl Fn(u64) -> bool) -> Runs {
    let mut made = Runs::default();
    let mut start = -1_000_000;
    for run in 0..runs {
        let (step, length) = if alone(run) && run + 1 < runs { (0, 1) } else { ((run % 7 + 1) as i16, 64) };
        made.push(start, step, length);
        start += i64::from(step) * (length as i64 - 1) + 5;
    }
    made
}

/// Where a column's starts lie.
#[derive(Clone, Copy)]
pub enum Edge {
    Nowhere,
    First,
    Last,
    All,
}

/// A sound column, 64 elements a run, whose first, last or every run starts within 2^47 of an edge of i64, where the check has to look closely.
pub fn edged(runs: u64, edge: Edge) -> Runs {
    let mut made = rising(runs, runs * 64);
    for (run, start) in made.starts.iter_mut().enumerate() {
        let there = match edge {
            Edge::Nowhere => false,
            Edge::First => run == 0,
            Edge::Last => run as u64 + 1 == runs,
            Edge::All => true,
        };
        if there {
            *start = if run % 2 == 0 { i64::MAX - 1_000_000 } else { i64::MIN + run as i64 };
        }
    }
    made
}
