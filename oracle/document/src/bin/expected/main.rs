//! What the programs must write and what the samples hold, by the model of the documents. No program's own output goes in.
//!
//! `expected --check` compares the stored files and fails on a difference; `expected --write` writes them anew; `expected --cases DIR` writes the
//! cases of scripts/command-test into the folder DIR.
use document::calls::{Call, Runs, Said};
use document::model::{Column, Session};
use std::path::{Path, PathBuf};
use std::process::ExitCode;

mod built;
mod cases;
mod columns;
mod command;
mod listings;
mod profiles;
mod records;
mod samples;
mod scans;

fn main() -> ExitCode {
    let words: Vec<String> = std::env::args().skip(1).collect();
    match words.iter().map(String::as_str).collect::<Vec<_>>()[..] {
        ["--check"] => return check(),
        ["--write"] => stored().iter().for_each(|(name, data)| put(&root().join(name), data)),
        ["--cases", folder] => cases::cases(Path::new(folder)),
        _ => {
            eprintln!("expected --check | --write | --cases DIR");
            return ExitCode::from(2);
        }
    }
    ExitCode::SUCCESS
}

fn check() -> ExitCode {
    let files = stored();
    let mut wrong = 0;
    for (name, data) in &files {
        let there = std::fs::read(root().join(name)).unwrap_or_default();
        if there != *data {
            wrong += 1;
            eprintln!("expected: {name} is not what the model says, from line {} on", 1 + lines_alike(&there, data));
        }
    }
    if wrong > 0 {
        return ExitCode::FAILURE;
    }
    println!("expected: {} stored files are as the model says", files.len());
    ExitCode::SUCCESS
}

/// How many lines are the same before the first that differs.
fn lines_alike(a: &[u8], b: &[u8]) -> usize {
    a.split_inclusive(|&c| c == b'\n').zip(b.split_inclusive(|&c| c == b'\n')).take_while(|(a, b)| a == b).count()
}

/// The stored files, and what each must hold.
fn stored() -> Vec<(&'static str, Vec<u8>)> {
    let scans = [scans::scanned(), scans::lending()];
    let made = [built::built(), built::mapped()];
    vec![
        ("crates/examples_columns/stdout", columns::run_only().into_bytes()),
        ("crates/examples_scans/stdout", scans.concat().into_bytes()),
        ("crates/examples_listings/stdout", [listings::listed(), listings::totalled()].concat().into_bytes()),
        ("crates/examples_records/stdout", records::stored().into_bytes()),
        ("crates/examples_built/stdout", made.concat().into_bytes()),
        ("crates/examples_profiles/stdout", profiles::profiled().into_bytes()),
        ("crates/command/stdout", command::stdout().into_bytes()),
        ("crates/command/data/bark.rec", samples::bark()),
        ("samples/bark.rec", samples::bark()),
        ("samples/damaged.rec", samples::damaged()),
    ]
}

fn root() -> PathBuf {
    Path::new(env!("CARGO_MANIFEST_DIR")).join("../..")
}

fn put(path: &Path, data: impl AsRef<[u8]>) {
    std::fs::write(path, data).unwrap_or_else(|e| panic!("{}: {e}", path.display()));
}

/// Document 01's columns.
fn c() -> Runs {
    Runs::of(&[(10, 5, 4), (30, 0, 1), (31, -3, 1), (40, 100, 3)])
}

fn d() -> Runs {
    Runs::of(&[(10, -5, 2), (6, 1, 3)])
}

/// From the least i64 to the greatest.
fn far() -> Runs {
    Runs::of(&[(i64::MIN, 32767, 3), (i64::MAX - 1, 1, 2)])
}

/// Any three arrays.
fn arrays(starts: &[i64], ends: &[u64], steps: &[i16]) -> Runs {
    Runs { starts: starts.to_vec(), ends: ends.to_vec(), steps: steps.to_vec() }
}

/// What the model says to one call on a column.
fn ask(runs: &Runs, call: Call) -> Said {
    Session::new(&Column::new(runs)).call(&call)
}

/// An answer as the programs write it; narrow and reset find no element.
fn told(said: &Said) -> String {
    match said {
        Said::Refused(number) => format!("refused {number}"),
        Said::None | Said::Ok => "none".into(),
        Said::Value(v) => v.to_string(),
        Said::Index(n) | Said::Length(n) => n.to_string(),
        Said::Place(run, offset, follows) => format!("({run},{offset},{follows})"),
        other => unreachable!("{other} is written elsewhere"),
    }
}
