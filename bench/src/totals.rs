//! Exact totals, against a plain Rust by the same formula with i128.
use crate::clock::{Against, Clock, work};
use crate::columns::{Runs, rising};
use crate::page::grouped;
use crate::plain;
use loftsplice::raw;
use std::hint::black_box;

/// As long as a column may be.
const ELEMENTS: u64 = 4_294_967_295;
const PLAIN: Against = Against { name: "plain Rust, i128", target: Some(1.5) };

/// What is asked of either side: a column, and windows.
struct Asked {
    runs: Runs,
    from: Vec<u64>,
    to: Vec<u64>,
}

/// Count, least, greatest, high and low of each window.
#[derive(Debug, PartialEq)]
struct Places {
    counts: Vec<u64>,
    leasts: Vec<i64>,
    greatests: Vec<i64>,
    highs: Vec<i64>,
    lows: Vec<u64>,
}

/// Over all windows.
#[derive(Debug, PartialEq)]
struct All {
    count: u64,
    edges: Option<(i64, i64)>,
    high: i64,
    low: u64,
}

fn places(windows: usize) -> Places {
    let (numbers, signed) = (vec![99; windows], vec![-77; windows]);
    Places { counts: numbers.clone(), leasts: signed.clone(), greatests: signed.clone(), highs: signed, lows: numbers }
}

fn port(asked: &Asked, to: &mut Places) -> Result<All, u32> {
    let Places { counts, leasts, greatests, highs, lows } = to;
    let runs = &asked.runs;
    let all = raw::totals(&runs.starts, &runs.ends, &runs.steps, &asked.from, &asked.to, counts, leasts, greatests, highs, lows);
    let edges = (all.found == 1).then_some((all.least, all.greatest));
    if all.refusal == 0 { Ok(All { count: all.count, edges, high: all.high, low: all.low }) } else { Err(all.refusal) }
}

/// A window, or all.
#[derive(Clone, Copy)]
struct Exact {
    count: u64,
    least: i64,
    greatest: i64,
    sum: i128,
}

const NONE: Exact = Exact { count: 0, least: i64::MAX, greatest: i64::MIN, sum: 0 };

/// A window of a sound column, run by run: of each stretch first and last, and the sum by these.
fn window(Runs { starts, ends, steps }: &Runs, start: u64, end: u64) -> Exact {
    let mut exact = NONE;
    if start >= end {
        return exact;
    }
    let first = ends.partition_point(|&run| run <= start);
    let mut begin = if first == 0 { 0 } else { ends[first - 1] };
    for ((&value, &run), &step) in starts[first..].iter().zip(&ends[first..]).zip(&steps[first..]) {
        let (from, to) = (start.max(begin), end.min(run));
        let element = |index: u64| value + i64::from(step) * (index - begin) as i64;
        let (a, b) = (element(from), element(to - 1));
        exact.count += to - from;
        exact.least = exact.least.min(a).min(b);
        exact.greatest = exact.greatest.max(a).max(b);
        exact.sum += i128::from(to - from) * (i128::from(a) + i128::from(b)) / 2;
        if end <= run {
            break;
        }
        begin = run;
    }
    exact
}

fn rust(Asked { runs, from, to: ends }: &Asked, to: &mut Places) -> Result<All, u32> {
    let refusal = plain::check(&runs.starts, &runs.ends, &runs.steps);
    if refusal != 0 {
        return Err(refusal);
    }
    let n = from.len();
    if n > 256 || ends.len() != n {
        return Err(8);
    }
    if ends.iter().any(|&end| end > runs.len()) {
        return Err(5);
    }
    let mut windows = [NONE; 256];
    let mut all = NONE;
    for ((place, &start), &end) in windows.iter_mut().zip(from).zip(ends) {
        let exact = window(runs, start, end);
        *place = exact;
        all.count += exact.count;
        all.least = all.least.min(exact.least);
        all.greatest = all.greatest.max(exact.greatest);
        all.sum += exact.sum;
    }
    let high = i64::try_from(all.sum >> 32).map_err(|_| 18u32)?;
    if [to.counts.len(), to.leasts.len(), to.greatests.len(), to.highs.len(), to.lows.len()].iter().any(|&places| places < n) {
        return Err(10);
    }
    for (i, exact) in windows[..n].iter().enumerate() {
        to.counts[i] = exact.count;
        if exact.count > 0 {
            to.leasts[i] = exact.least;
            to.greatests[i] = exact.greatest;
        }
        to.highs[i] = (exact.sum >> 32) as i64;
        to.lows[i] = exact.sum as u64 & 0xFFFF_FFFF;
    }
    let edges = (all.count > 0).then_some((all.least, all.greatest));
    Ok(All { count: all.count, edges, high, low: all.sum as u64 & 0xFFFF_FFFF })
}

/// Both say and leave the same.
fn alike(asked: &Asked, room: usize) -> Result<All, u32> {
    let mut to = [places(room), places(room)];
    let [ours, theirs] = &mut to;
    let said = port(asked, ours);
    assert_eq!(said, rust(asked, theirs));
    assert_eq!(ours, theirs);
    said
}

/// Windows that cut a small column everywhere, one by one and together; sums without a high; bad input.
fn small() {
    let mut runs = Runs::default();
    for (start, step, length) in [(7, -3, 5), (-40, 0, 2), (i64::MAX - 6, 2, 4), (i64::MIN, 1, 3)] {
        runs.push(start, step, length);
    }
    let all: Vec<(u64, u64)> = (0..=15).flat_map(|start| (0..=14).map(move |end| (start, end))).collect();
    for windows in all.chunks(1).chain(all.chunks(60)).chain(all.chunks(257)) {
        let (from, to) = windows.iter().copied().unzip();
        let asked = Asked { runs: runs.clone(), from, to };
        for room in [0, windows.len(), windows.len() + 1] {
            let _ = alike(&asked, room);
        }
    }
    for times in [1, 2, 256, 257] {
        let most = Runs { starts: vec![i64::MIN], ends: vec![ELEMENTS], steps: vec![0] };
        let said = alike(&Asked { runs: most, from: vec![0; times], to: vec![ELEMENTS; times] }, times);
        assert_eq!(said.err(), [None, Some(18), Some(18), Some(8)][[1, 2, 256, 257].iter().position(|t| *t == times).expect("one of them")]);
    }
}

fn race(clock: &mut Clock, asked: &Asked, word: &str) {
    let windows = asked.from.len();
    alike(asked, windows).expect("accepted");
    let runs = asked.runs.ends.len() as u64;
    let count = if windows == 1 { "1 window".into() } else { format!("{windows} windows") };
    let mut to = [places(windows), places(windows)];
    let [ours, theirs] = &mut to;
    clock.race(
        "totals",
        format!("{} runs, {count} {word}", grouped(runs)),
        ("window", windows as u64),
        work(move || port(black_box(asked), black_box(ours))),
        vec![(PLAIN, work(move || rust(black_box(asked), black_box(theirs))))],
    );
}

pub fn measure(clock: &mut Clock) {
    small();
    for runs in [16, 256, 4096] {
        let column = rising(runs, ELEMENTS);
        race(clock, &Asked { runs: column.clone(), from: vec![0; 256], to: vec![ELEMENTS; 256] }, "of all 4,294,967,295 elements");
        let part = |i: u64| ELEMENTS / 256 * i;
        let asked = Asked { runs: column, from: (0..256).map(part).collect(), to: (1..=256).map(part).collect() };
        race(clock, &asked, "side by side");
    }
    let column = rising(4096, ELEMENTS);
    race(clock, &Asked { runs: column, from: vec![0], to: vec![ELEMENTS] }, "of all 4,294,967,295 elements");
}
