//! The program examples_columns: steps at the limits, 4,096 runs and one more, columns index by index.
use crate::{arrays, ask, c, d, told};
use document::calls::{Call, Runs, Said};
use std::fmt::Write;

const LEAST: i64 = i64::MIN;
const BIG: i64 = i64::MAX;
const STEPS: [(i64, i64); 7] =
    [(0, 32767), (0, 32768), (0, -32768), (0, -32769), (BIG, BIG - 32768), (LEAST, BIG), (BIG, LEAST)];

pub fn run_only() -> String {
    let mut out = String::from("== run_only\n");
    for (previous, current) in STEPS {
        let step = told(&ask(&Runs::default(), Call::Diff(previous, current)));
        writeln!(out, "step from {previous} to {current}: {step}").unwrap();
    }
    for n in [4096, 4097] {
        let runs = Runs { starts: vec![7; n], ends: (1..=n as u64).collect(), steps: vec![1; n] };
        writeln!(out, "{n} runs: {}", fine(&runs)).unwrap();
    }
    for (name, runs, upto) in columns() {
        if !name.is_empty() {
            writeln!(out, "{name}").unwrap();
        }
        column(&mut out, &runs, upto);
    }
    out
}

/// Under which name, the column, and the index up to which it is asked; no name: under the one before.
fn columns() -> Vec<(&'static str, Runs, u64)> {
    vec![
        ("C", c(), 11),
        ("D", d(), 7),
        ("no runs", Runs::default(), 2),
        ("the edge", arrays(&[BIG - 7], &[8], &[1]), 9),
        ("", arrays(&[BIG - 7], &[9], &[1]), 1),
        ("", arrays(&[LEAST], &[4_294_967_295], &[32767]), 3),
        ("damaged", arrays(&[1, 2], &[1], &[0]), 1),
        ("", arrays(&[1, 2], &[5, 5], &[0, 0]), 1),
        ("", arrays(&[1], &[0], &[0]), 1),
        ("", arrays(&[1], &[4_294_967_296], &[0]), 1),
        ("", arrays(&[LEAST], &[2], &[-1]), 1),
    ]
}

fn fine(runs: &Runs) -> String {
    match ask(runs, Call::Check) {
        Said::Length(_) => "fine".into(),
        other => told(&other),
    }
}

fn column(out: &mut String, runs: &Runs, upto: u64) {
    let length = ask(runs, Call::Check);
    let emptiness = match length {
        Said::Length(0) => "empty".into(),
        Said::Length(_) => "not empty".into(),
        ref other => told(other),
    };
    writeln!(out, "check {}, length {}, {emptiness}", fine(runs), told(&length)).unwrap();
    for i in 0..upto {
        writeln!(out, "{i} at {} is {}", told(&ask(runs, Call::Place(i))), told(&ask(runs, Call::Element(i)))).unwrap();
    }
}
