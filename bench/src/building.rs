//! Runs built from a plain list, against a plain loop of the same work.
use crate::clock::{Against, Clock, work};
use crate::columns::{Runs, rising};
use crate::page::grouped;
use crate::plain;
use loftsplice::{ColumnBuf, raw};
use std::hint::black_box;

const MOST: usize = 4096;

fn port(values: &[i64], to: &mut Runs) -> Result<usize, u32> {
    let built = raw::build(values, &mut to.starts, &mut to.ends, &mut to.steps);
    if built.refusal == 0 { Ok(built.runs as usize) } else { Err(built.refusal) }
}

fn rust(values: &[i64], to: &mut Runs) -> Result<usize, u32> {
    plain::build(values, &mut to.starts, &mut to.ends, &mut to.steps)
}

pub fn places(count: usize) -> Runs {
    Runs { starts: vec![7; count], ends: vec![7; count], steps: vec![7; count] }
}

/// Both say and leave the same: for each beginning of a list, and into each room.
fn alike(values: &[i64]) {
    for length in 0..values.len() {
        for room in [0, length / 2, length] {
            let mut to = [places(room), places(room)];
            let [ours, theirs] = &mut to;
            assert_eq!(port(&values[..length], ours), rust(&values[..length], theirs));
            assert_eq!(ours, theirs);
        }
    }
}

fn race(clock: &mut Clock, values: &[i64], word: &str) {
    alike(&values[..values.len().min(60)]);
    let mut to = [places(MOST), places(MOST)];
    let [ours, theirs] = &mut to;
    let runs = port(values, ours).expect("not too many runs");
    assert_eq!(rust(values, theirs), Ok(runs));
    assert_eq!(ours, theirs);
    clock.race(
        "build",
        format!("{} values, {word}: {} runs", grouped(values.len() as u64), grouped(runs as u64)),
        ("value", values.len() as u64),
        work(|| port(black_box(values), black_box(ours))),
        vec![(Against { name: "plain loop of the same work", target: Some(1.25) }, work(|| rust(black_box(values), black_box(theirs))))],
    );
}

/// A program that makes a column of what an iterator gives, by the crate, and by a plain loop that pushes run after run.
fn from_iterator(clock: &mut Clock, values: &[i64]) {
    let ours = || ColumnBuf::from_values(black_box(values).iter().map(|value| value - 5)).expect("not too many runs");
    let theirs = || pushed(black_box(values).iter().map(|value| value - 5));
    let Runs { starts, ends, steps } = theirs();
    assert_eq!(ours().into_lists(), (starts, ends, steps));
    clock.race(
        "build from an iterator",
        format!("{} values", grouped(values.len() as u64)),
        ("value", values.len() as u64),
        work(ours),
        vec![(Against { name: "plain loop that pushes runs", target: None }, work(theirs))],
    );
}

#[inline(never)]
fn pushed(values: impl Iterator<Item = i64>) -> Runs {
    let mut runs = Runs::default();
    let (mut last, mut alone) = (None, true);
    for value in values {
        let step = last.and_then(|last| i16::try_from(value.checked_sub(last)?).ok());
        last = Some(value);
        match (step, runs.steps.last_mut(), runs.ends.last_mut()) {
            (Some(step), Some(kept), Some(end)) if alone || *kept == step => {
                *kept = step;
                *end += 1;
                alone = false;
            }
            _ => {
                runs.push(value, 0, 1);
                alone = true;
            }
        }
    }
    runs
}

/// Numbers that can't be foreseen, the same in every run.
pub fn random(count: usize, one: impl Fn(u64) -> i64) -> Vec<i64> {
    let mut word = 0x9E37_79B9_7F4A_7C15_u64;
    let mut next = || {
        word ^= word << 13;
        word ^= word >> 7;
        word ^= word << 17;
        one(word)
    };
    (0..count).map(|_| next()).collect()
}

pub fn measure(clock: &mut Clock) {
    for runs in [16, 4096] {
        let column = rising(runs, 1_000_000);
        let values: Vec<i64> = (0..column.len()).map(|index| column.at(index)).collect();
        race(clock, &values, "long runs");
        if runs == 4096 {
            from_iterator(clock, &values);
        }
    }
    let twos: Vec<i64> = (0..MOST as i64).flat_map(|run| [run * 70_000, run * 70_000 + run % 7]).collect();
    race(clock, &twos, "runs of two");
    race(clock, &random(MOST, |word| word as i64), "random");
    race(clock, &random(8_000, |word| (word % 1000) as i64), "random below 1,000");
}
