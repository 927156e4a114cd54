//! The check of a column and the rising test, against plain Rust.
use crate::clock::{Against, Clock, work};
use crate::columns::{Edge, Runs, edged, rising, with_ones};
use crate::plain;
use loftsplice::raw;
use std::hint::black_box;

fn check(clock: &mut Clock, runs: u64, edge: Edge, place: &str, target: Option<f64>) {
    let Runs { starts, ends, steps } = &edged(runs, edge);
    assert_eq!((raw::check(starts, ends, steps), plain::check(starts, ends, steps)), (0, 0));
    clock.race(
        "check",
        format!("{runs} runs{place}"),
        ("run", runs),
        work(|| raw::check(black_box(starts), ends, steps)),
        vec![(
            Against { name: "plain check", target },
            work(|| plain::check(black_box(starts), ends, steps)),
        )],
    );
}

/// Both sides refuse alike, by the number: the baseline makes the same checks.
fn refused_alike() {
    let column = rising(64, 640);
    let both = |c: &Runs| (raw::check(&c.starts, &c.ends, &c.steps), plain::check(&c.starts, &c.ends, &c.steps));
    let mut seen = [0; 4];
    for run in 0..64 {
        for kind in 0..5 {
            let mut bad = column.clone();
            match kind {
                0 => bad.ends[run] = if run == 0 { 0 } else { bad.ends[run - 1] },
                1 => bad.ends[run] = 4_294_967_296,
                2 => bad.starts[run] = i64::MAX - 1,
                3 => (bad.starts[0], bad.ends[run]) = (i64::MAX, 0),
                _ => bad.steps.truncate(run),
            }
            let (port, plain) = both(&bad);
            assert_eq!(port, plain);
            seen[port as usize] += 1;
        }
    }
    assert_eq!(seen, [0, 64, 192, 64]);
}

/// No call is the rising test alone. But a listing tests all its windows before it does anything else, and is refused 7 if one falls: 255 windows over
/// all that rises and a last one over the two elements that fall are one check and 256 rising tests, with no search and nothing written.
fn rise(clock: &mut Clock, mut column: Runs, size: String, target: Option<f64>) {
    falls_alike(&column);
    *column.steps.last_mut().expect("a run") = -1;
    let Runs { starts, ends, steps } = &column;
    let all = column.len();
    let first_of_last = ends[ends.len() - 2];
    let (mut from, mut to) = (vec![0; 256], vec![first_of_last + 1; 256]);
    (from[255], to[255]) = (all - 2, all);
    let port = |to: &[u64]| raw::list(starts, ends, steps, &from, to, raw::INCLUSIVE_WINS, &[], &[], &[], &[], &mut [], &mut []).refusal;
    let rust = |to: &[u64]| match plain::check(starts, ends, steps) {
        0 if from.iter().zip(to).all(|(&from, &to)| plain::rises(black_box(starts), ends, steps, from, to)) => 0,
        0 => 7,
        refusal => refusal,
    };
    assert_eq!((port(&to), rust(&to)), (7, 7));
    // It is the last window alone that falls: without it only the room for what the others hold is missing.
    to[255] = all - 1;
    assert_eq!((port(&to), rust(&to)), (10, 0));
    to[255] = all;
    clock.race(
        "rising test, in a listing of 256 windows",
        size,
        ("run", 256 * ends.len() as u64),
        work(|| port(black_box(&to))),
        vec![(Against { name: "plain rising test", target }, work(|| rust(black_box(&to))))],
    );
}

/// A seek on a column that does not rise is its check and the rising test, up to the disorder that the test meets first.
fn refused(clock: &mut Clock, mut column: Runs, at: usize, size: String) {
    column.starts[at] -= 5; // its first element is then that of the run before, or below
    let Runs { starts, ends, steps } = &column;
    let scan = raw::Scan { start: 0, end: column.len(), index: 0, value: 0, state: raw::FRESH, found: 0 };
    let port = |starts: &[i64]| raw::scan_seek(scan, starts, ends, steps, 0).answer.refusal;
    let rust = |starts: &[i64]| match plain::check(starts, ends, steps) {
        0 if plain::rises(starts, ends, steps, 0, scan.end) => 0,
        0 => 7,
        refusal => refusal,
    };
    assert_eq!((port(starts), rust(starts)), (7, 7));
    clock.race(
        "seek refused 7",
        size,
        ("call", 1),
        work(|| port(black_box(starts))),
        vec![(Against { name: "plain check and rising test", target: None }, work(|| rust(black_box(starts))))],
    );
}

/// Both sides find a run that doesn't rise, or doesn't join the one before.
fn falls_alike(column: &Runs) {
    for run in 0..column.ends.len() {
        for kind in 0..2 {
            let mut bad = column.clone();
            if kind == 0 { bad.steps[run] = -1 } else { bad.starts[run] -= 5 }
            let Runs { starts, ends, steps } = &bad;
            let scan = raw::Scan { start: 0, end: bad.len(), index: 0, value: 0, state: raw::FRESH, found: 0 };
            let refused = raw::scan_seek(scan, starts, ends, steps, 0).answer.refusal;
            assert!(refused == 0 || refused == 7);
            assert_eq!(plain::rises(starts, ends, steps, 0, bad.len()), refused == 0);
            let alone = ends[run] - if run == 0 { 0 } else { ends[run - 1] } == 1;
            assert!(refused == 7 || (kind == 1 && run == 0) || (kind == 0 && alone));
        }
    }
}

pub fn measure(clock: &mut Clock) {
    refused_alike();
    let most = Some(0.6);
    check(clock, 16, Edge::Nowhere, "", None);
    check(clock, 256, Edge::Nowhere, "", None);
    check(clock, 4096, Edge::Nowhere, "", most);
    check(clock, 4096, Edge::First, ", the first at an edge of i64", most);
    check(clock, 4096, Edge::Last, ", the last at an edge", most);
    check(clock, 4096, Edge::All, ", all at an edge", Some(1.2));
    for (runs, target) in [(16, None), (256, None), (4096, Some(0.5))] {
        rise(clock, rising(runs, runs * 64), format!("{runs} runs"), target);
    }
    rise(clock, with_ones(4096, |_| true), "4096 runs of one element".into(), None);
    // in no order that a processor could foresee
    let half = |run: u64| (run.wrapping_mul(0x9E37_79B9_7F4A_7C15) >> 32).count_ones() % 2 == 0;
    rise(clock, with_ones(4096, half), "4096 runs, half of one element".into(), None);
    refused(clock, rising(4096, 4096 * 64), 4095, "4096 runs, the last pair of runs falls".into());
    refused(clock, rising(4096, 4096 * 64), 1, "4096 runs, the first pair falls".into());
}
