//! What a Rust programmer writes for the records of a window that carry a field, and for the others: run by run, a fill a stretch, counted before anything is
//! written.
use crate::bits::placed;
use crate::plain;

const MOST: u64 = 4_294_967_295;

/// A run as record numbers: its first, its step (of a run of one, 1) and its last.
#[derive(Clone, Copy)]
struct Run {
    first: u64,
    step: u64,
    last: u64,
}

#[inline(always)]
fn runs<'a>(starts: &'a [i64], ends: &'a [u64], steps: &'a [i16]) -> impl Iterator<Item = Run> + 'a {
    let mut begin = 0;
    starts.iter().zip(ends).zip(steps).map(move |((&start, &end), &step)| {
        let more = end - std::mem::replace(&mut begin, end) - 1;
        let (first, step) = (start as u64, if more == 0 { 1 } else { step as u64 });
        Run { first, step, last: first + step * more }
    })
}

/// The part of each run that lies in a window, where there is one.
#[inline(always)]
fn parts(all: impl Iterator<Item = Run>, start: u64, end: u64) -> impl Iterator<Item = Run> {
    all.skip_while(move |run| run.last < start).take_while(move |run| run.first < end).filter_map(move |run| {
        let first = if run.first < start { start + (run.step - (start - run.first) % run.step) % run.step } else { run.first };
        let last = if run.last < end { run.last } else { end - 1 - (end - 1 - run.first) % run.step };
        (run.first < end && first <= last).then_some(Run { first, last, ..run })
    })
}

/// So many numbers, a step apart, into the places from one on; where the next go.
#[inline(always)]
fn fill(out: &mut [u64], at: usize, first: u64, step: u64, count: u64) -> usize {
    let beyond = at + count as usize;
    let mut next = first;
    for place in &mut out[at..beyond] {
        *place = next;
        next += step;
    }
    beyond
}

#[inline(always)]
fn elements(parts: impl Iterator<Item = Run>, out: &mut [u64]) {
    parts.fold(0, |at, run| fill(out, at, run.first, run.step, (run.last - run.first) / run.step + 1));
}

/// The records before each part, between its elements, and after the last.
#[inline(always)]
fn others(parts: impl Iterator<Item = Run>, start: u64, end: u64, out: &mut [u64]) {
    let (mut at, mut next) = (0, start);
    for run in parts {
        at = fill(out, at, next, 1, run.first - next);
        if run.step == 2 {
            at = fill(out, at, run.first + 1, 2, (run.last - run.first) / 2);
        } else if run.step > 2 {
            for element in (run.first..run.last).step_by(run.step as usize) {
                at = fill(out, at, element + 1, 1, run.step - 1);
            }
        }
        next = run.last + 1;
    }
    fill(out, at, next, 1, end - next);
}

/// The elements of a window (`here`) or its other records, and how many they are; refused 14, 1, 2, 3, 7, 15, 5, 10. The profile is the caller's.
#[inline(never)]
pub fn list(here: bool, count: u64, (starts, ends, steps): (&[i64], &[u64], &[i16]), start: u64, end: u64, out: &mut [u64]) -> Result<u64, u32> {
    if count > MOST {
        return Err(14);
    }
    match plain::check(starts, ends, steps) {
        0 => placed(starts, ends, steps, count)?,
        refusal => return Err(refusal),
    }
    if end > count {
        return Err(5);
    }
    if start >= end {
        return Ok(0);
    }
    let own: u64 = parts(runs(starts, ends, steps), start, end).map(|run| (run.last - run.first) / run.step + 1).sum();
    let needed = if here { own } else { end - start - own };
    let out = out.get_mut(..needed as usize).ok_or(10u32)?;
    let parts = parts(runs(starts, ends, steps), start, end);
    if here {
        elements(parts, out);
    } else {
        others(parts, start, end, out);
    }
    Ok(needed)
}
