//! `differential quick|long [--seconds N] [--seed S]`: the Rust, the model and the port, compared call by call. Exit status 0 exactly if nothing differs.
use oracle::calls::Runs;
use oracle::compare::{Tally, quiet_panics};
use oracle::random::Dice;
use oracle::{bitmaps, exhaustive, lists, port, profiles, random, rust, totals};
use std::time::{Duration, Instant};

fn main() {
    let words: Vec<String> = std::env::args().skip(1).collect();
    let option = |name: &str| words.iter().position(|w| w == name).and_then(|i| words.get(i + 1)).and_then(|v| v.parse::<u64>().ok());
    let long = match words.first().map(String::as_str) {
        Some("quick") => false,
        Some("long") => true,
        _ => {
            eprintln!("differential quick|long [--seconds N] [--seed S]");
            std::process::exit(2);
        }
    };
    let seconds = Duration::from_secs(option("--seconds").unwrap_or(if long { 1800 } else { 120 }));
    let seed = option("--seed").unwrap_or(1);
    oracle::announce();
    if !rust::PRESENT && !port::PRESENT {
        eprintln!("nothing to compare the model with");
        std::process::exit(2);
    }
    quiet_panics();
    let begun = Instant::now();
    let mut tally = Tally { limit: 5, ..Tally::default() };
    // A short random run first: it meets most of what can differ within a second.
    randomly(&mut tally, Duration::from_secs(2), seed, begun);
    let levels = if long { exhaustive::LONG } else { exhaustive::QUICK };
    lists::everything(if long { 6 } else { 5 }, &mut tally);
    say("with lists to build from", &tally, begun);
    bitmaps::everything(if long { 13 } else { 499 }, &mut tally);
    say("with bitmaps", &tally, begun);
    profiles::everything(if long { 1 } else { 7 }, &mut tally);
    say("with profiles", &tally, begun);
    totals::everything(if long { 1 } else { 20 }, &mut tally);
    say("with totals", &tally, begun);
    everything(&mut tally, levels, if long { 3 } else { 29 }, begun);
    randomly(&mut tally, seconds.saturating_sub(begun.elapsed()).max(Duration::from_secs(5)), seed.wrapping_add(1), begun);
    say("with random", &tally, begun);
    if let Some(first) = tally.first {
        println!("{} differences; the first after {first} calls", tally.differences);
        std::process::exit(1);
    }
    println!("no difference");
}

/// Everything small, in four parts; says after each part, and each minute, how far it is.
fn everything(tally: &mut Tally, levels: [exhaustive::Level; 3], far: usize, begun: Instant) {
    let part = |name: &str, columns: Vec<Runs>, play: &dyn Fn(&Runs, &mut Tally), tally: &mut Tally| {
        let mut told = Instant::now();
        for (i, runs) in columns.iter().enumerate() {
            if tally.full() {
                return;
            }
            play(runs, tally);
            if told.elapsed() > Duration::from_secs(60) {
                say(&format!("{name}, {i} of {} columns", columns.len()), tally, begun);
                told = Instant::now();
            }
        }
        say(&format!("{name}, all {} columns", columns.len()), tally, begun);
    };
    exhaustive::limits(tally);
    part("far seeks", exhaustive::far_columns(far), &exhaustive::far_seeks, tally);
    for level in [levels[0], levels[1]] {
        let name = format!("scans, up to {} runs, {} calls deep", level.runs, level.depth);
        part(&name, exhaustive::columns(level), &|runs, tally| exhaustive::scans(runs, level.depth, tally), tally);
    }
    let level = levels[2];
    let name = format!("filters and listings, up to {} runs, {} calls deep", level.runs, level.depth);
    let play = |runs: &Runs, tally: &mut Tally| {
        exhaustive::filters(runs, level.depth, tally);
        exhaustive::listings(runs, tally);
    };
    part(&name, exhaustive::columns(level), &play, tally);
}

fn randomly(tally: &mut Tally, time: Duration, seed: u64, begun: Instant) {
    let mut dice = Dice(seed);
    let from = Instant::now();
    let mut told = from;
    while from.elapsed() < time && !tally.full() {
        let most = if dice.once_in(50) { 4096 } else { 40 };
        random::round(&mut dice, most, tally);
        if told.elapsed() > Duration::from_secs(60) {
            say("so far", tally, begun);
            told = Instant::now();
        }
    }
}

fn say(what: &str, t: &Tally, begun: Instant) {
    println!(
        "{what}: {} calls compared in {} sequences ({} with the Rust, {} refused, {} panics of the Rust as foretold, {} looks inside), {} differences, {:.1} s",
        t.calls,
        t.sequences,
        t.rust,
        t.refused,
        t.panics,
        t.inside,
        t.differences,
        begun.elapsed().as_secs_f64()
    );
}
