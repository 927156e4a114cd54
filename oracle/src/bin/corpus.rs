//! `corpus FILE [--cases N] [--seed S]`: writes cases of every kind, each answer by the model, and `both` where the Rust gave the same to every call
//! that is not refused. A difference ends it.
//!
//! `corpus --rattle DIR [--cases N] [--seed S]`: writes a sample of the Rust's answers as the Rattle program DIR (crates/replayed), by the
//! first seed from S on whose sample has every kind of call.
use oracle::calls::*;
use oracle::compare::{self, Bench, Tally, alone, by_hand, sequence};
use oracle::random::{self, Dice};
use oracle::{bitmaps, corpus, lists, model, profiles, rust, totals};
use std::io::Write;

fn main() {
    let words: Vec<String> = std::env::args().skip(1).collect();
    let option = |name: &str| words.iter().position(|w| w == name).and_then(|i| words.get(i + 1)).and_then(|v| v.parse::<u64>().ok());
    if let Some(at) = words.iter().position(|w| w == "--rattle") {
        let Some(folder) = words.get(at + 1) else {
            eprintln!("corpus --rattle DIR [--cases N] [--seed S]");
            std::process::exit(2);
        };
        return as_rattle(folder, option("--cases").unwrap_or(24), option("--seed").unwrap_or(1));
    }
    let Some(file) = words.first().filter(|w| !w.starts_with("--")) else {
        eprintln!("corpus FILE [--cases N] [--seed S]");
        std::process::exit(2);
    };
    let cases = option("--cases").unwrap_or(1000);
    let seed = option("--seed").unwrap_or(1);
    oracle::announce();
    compare::quiet_panics();
    let mut dice = Dice(seed);
    let mut tally = Tally { limit: 1, ..Tally::default() };
    let mut out = std::io::BufWriter::new(std::fs::File::create(file).unwrap_or_else(|e| {
        eprintln!("{file}: {e}");
        std::process::exit(2);
    }));
    let mut put = |text: &str| out.write_all(text.as_bytes()).expect("the file can be written");
    put(&format!("# written by `corpus {file} --cases {cases} --seed {seed}`\n"));
    for number in 1..=cases {
        put(&case(&mut dice, number, &mut tally));
        if tally.full() {
            eprintln!("a difference: the file is not whole");
            std::process::exit(1);
        }
    }
    out.flush().expect("the file can be written");
    println!("{cases} cases, {} calls compared", tally.calls);
}

#[cfg(rust_text)]
fn as_rattle(folder: &str, cases: u64, seed: u64) {
    compare::quiet_panics();
    let made_by = |seed| format!("corpus --rattle crates/replayed --cases {cases} --seed {seed}");
    let sample = oracle::rattle::showing(cases as usize, seed, made_by);
    for (name, text) in sample.files {
        let path = std::path::Path::new(folder).join(name);
        std::fs::write(&path, text).unwrap_or_else(|e| panic!("{}: {e}", path.display()));
    }
    let kinds: Vec<_> = sample.calls.iter().map(|(name, n)| format!("{n} {name}")).collect();
    println!("seed {}: {cases} cases; {}", sample.seed, kinds.join(", "));
}

#[cfg(not(rust_text))]
fn as_rattle(_: &str, _: u64, _: u64) {
    eprintln!("the Rust's text is not there, and the sample is of its answers");
    std::process::exit(2);
}

/// One case as text.
fn case(d: &mut Dice, number: u64, tally: &mut Tally) -> String {
    let most = if d.once_in(20) { 300 } else { 12 };
    let mut runs = random::column(d, most);
    let kind = d.pick(&[
        "scan", "scan", "filter", "filter", "mixed", "mixed", "column", "raw", "list", "read", "write", "build", "import", "export", "profile", "totals",
    ]);
    if (["column", "write"].contains(&kind) && d.once_in(2)) || d.once_in(25) {
        random::damage(d, &mut runs);
    }
    let mut counts = Vec::new();
    if ["export", "profile"].contains(&kind) {
        (runs, counts) = bitmaps::moved(d, &runs);
    }
    let c = model::Column::new(&runs);
    let values = random::values(d, &c);
    let mut bench = Bench::new(&c, &values);
    match kind {
        "column" => {
            let mut calls = random::column_calls(d, &c);
            calls.push(Call::New);
            let answers: Vec<Said> = calls.iter().map(|call| answer(&mut bench, call, tally)).collect();
            let made = |call: &Call| Call::New == *call && c.check().is_ok();
            let scan = model::Session::new(&c).scan;
            let lines = calls.iter().zip(&answers).map(|(call, said)| {
                let state = if made(call) { corpus::after(&scan, None) } else { String::new() };
                format!("{call} -> {said}{state}\n")
            });
            whole(number, kind, rust::PRESENT, &runs, lines.collect())
        }
        "raw" => {
            let (scan, (wins, mode), calls) = random::hand_calls(d, &c, &values);
            let answers = by_hand(&mut bench, scan, (wins, mode), &calls, tally);
            let lines = calls.iter().zip(&answers).map(|(call, (said, scan, sieve))| line(call, said, scan, sieve.as_ref()));
            let text = format!("{} -> ok\n{} -> ok\n", Call::Set(scan), Call::FilterSet(wins, mode)) + &lines.collect::<String>();
            whole(number, kind, false, &runs, text)
        }
        "profile" => {
            counts.extend([4_294_967_295; 3]);
            let count = d.pick(&counts);
            let calls = [profiles::one(d, &c, count), profiles::one(d, &c, count), few(d, &c, count)];
            let lines = calls.iter().map(|call| format!("{call} -> {}\n", alone(&mut bench, call, tally)));
            whole(number, kind, false, &runs, lines.collect())
        }
        "list" | "write" | "read" | "build" | "import" | "export" | "totals" => {
            let call = match kind {
                "list" => {
                    let wins = d.pick(&[Wins::Inclusive, Wins::Exclusive]);
                    random::listing(d, &c, wins)
                }
                "write" => Call::Write((6 + 14 * runs.ends.len()).saturating_add_signed(d.pick(&[0, 0, 1, 7, -1]))),
                "read" => random::record(d, &c),
                "build" => random_build(d),
                "import" => random_import(d),
                "totals" => totals::random(d, &c),
                _ => {
                    let count = d.pick(&counts);
                    Call::Export(count, bitmaps::need(count).saturating_add_signed(d.pick(&[0, 0, 0, 2, -1])))
                }
            };
            let before = tally.rust;
            let said = alone(&mut bench, &call, tally);
            let both = tally.rust > before;
            let none = Runs::default();
            whole(number, kind, both, if ["read", "build", "import"].contains(&kind) { &none } else { &runs }, format!("{call} -> {said}\n"))
        }
        _ => {
            let mut calls = random::calls_of(d, &c, &values, 25, kind);
            let strict = d.once_in(3);
            random::with_ties(d, &mut calls, strict);
            let before = tally.panics;
            let answers = sequence(&mut bench, &calls, tally);
            let far = tally.panics > before;
            let lines = calls.iter().zip(&answers).map(|(call, (said, scan, sieve))| line(call, said, scan, sieve.as_ref()));
            whole(number, if far { "far" } else { kind }, rust::PRESENT && !far && !strict && c.check().is_ok(), &runs, lines.collect())
        }
    }
}

/// A list to build from, into places that are right, longer or short.
fn random_build(d: &mut Dice) -> Call {
    let list = lists::random(d);
    into_places(d, |places| Call::Build(list.clone(), places))
}

/// A bitmap to import, of few bytes, since they are printed.
fn random_import(d: &mut Dice) -> Call {
    let small = (0..).map(|_| bitmaps::random(d)).find(|(bytes, _)| bytes.len() < 200);
    let (bytes, count) = small.expect("most are");
    into_places(d, |places| Call::Import(bytes.clone(), count, places))
}

/// A listing by profile of a few records, since they are printed.
fn few(d: &mut Dice, c: &model::Column, count: u64) -> Call {
    let small = |call: &Call| matches!(call, Call::Profile(f) if f.places < 300);
    (0..).map(|_| profiles::random(d, c, count)).find(small).expect("most are")
}

/// Such a call with places that are right, longer or short; how many it needs is asked of the model.
fn into_places(d: &mut Dice, call: impl Fn([usize; 3]) -> Call) -> Call {
    let n = match model::Session::new(&model::Column::new(&Runs::default())).call(&call([4096; 3])) {
        Said::Built(runs) | Said::Imported { runs, .. } => runs.starts.len(),
        _ => 4096,
    };
    call([(); 3].map(|()| n.saturating_add_signed(d.pick(&[0, 0, 0, 0, 1, 3, -1]))))
}

/// A column call, or making a scan.
fn answer(bench: &mut Bench, call: &Call, tally: &mut Tally) -> Said {
    match call {
        Call::New => sequence(bench, std::slice::from_ref(call), tally).swap_remove(0).0,
        _ => alone(bench, call, tally),
    }
}

fn line(call: &Call, said: &Said, scan: &Scan, sieve: Option<&model::Sieve>) -> String {
    let state = if corpus::has_state(call, said) { corpus::after(scan, sieve) } else { String::new() };
    format!("{call} -> {said}{state}\n")
}

fn whole(number: u64, kind: &str, both: bool, runs: &Runs, lines: String) -> String {
    format!("{}{lines}end\n", corpus::head(number, kind, both, runs))
}
