//! The program examples_scans: call sequences on a scan, a line a call, with the scan as it is afterwards.
use crate::{arrays, c, d, far, told};
use document::calls::{Call, Runs, Said, Scan, State};
use document::corpus;
use document::model::{Column, Session};
use std::fmt::Write;

/// On a column of which the whole does not rise.
const FALLING: &str = "new, seek 6, next, narrow 1 5, seek 6, current, pos, narrow 1 2, seek 5, seek 6, narrow 1 4, seek 8";
const EACH: &str = "next, seek 0, narrow 0 1, reset";

pub fn scanned() -> String {
    let mut out = String::from("== scanned\nC\n");
    play(
        &mut out,
        &c(),
        "new, current, pos, seek 16, seek 12, next, current, pos, seek 26, seek 241, current, pos, next, reset",
    );
    play(
        &mut out,
        &c(),
        "new, narrow 3 8, next, seek 200, narrow 0 9, narrow 3 3, next, narrow 8 2, next, narrow 18446744073709551615 4, \
         seek -9223372036854775808, narrow 0 10",
    );
    play(&mut out, &c(), "set 0 10 F -, next, narrow 0 1, reset");
    play(&mut out, &c(), "set 2 4 4 30, seek 0, current, pos");
    for misled in ["2 21", "2 -", "F 10", "E 240"] {
        play(&mut out, &c(), &format!("set 0 9 {misled}, next, reset, current, pos"));
    }
    out += "D\n";
    play(&mut out, &d(), FALLING);
    out += "far\n";
    play(&mut out, &far(), "new, seek 0, seek 9223372036854775806, next, reset, seek 9223372036854775807");
    out += "damaged\n";
    play(&mut out, &arrays(&[10, 6], &[2, 2], &[-5, 1]), FALLING);
    out
}

pub fn lending() -> String {
    let mut out = String::from("== lending\nC\n");
    play(
        &mut out,
        &c(),
        "set 0 9 F -, next, next, seek 26, seek 12, next, reset, next, narrow 3 8, next, narrow 0 10, seek 200, next, reset, \
         seek -9223372036854775808",
    );
    out += "D\n";
    play(&mut out, &d(), "set 0 5 F -, seek 6, next, seek 6, narrow 1 5, seek 7, next, next");
    out += "an end above the length, an index outside the window\n";
    play(&mut out, &c(), &format!("set 0 10 F -, {EACH}"));
    play(&mut out, &c(), &format!("set 2 4 4 30, {EACH}"));
    out += "damaged\n";
    for runs in [
        arrays(&[10], &[2, 5], &[-5, 1]),
        arrays(&[10, 6], &[2, 2], &[-5, 1]),
        arrays(&[i64::MAX], &[5], &[1]),
    ] {
        play(&mut out, &runs, &format!("set 1 3 2 6, {EACH}"));
    }
    out
}

/// Plays calls, in the words of a corpus. `set` is a scan put together by hand, and writes nothing.
fn play(out: &mut String, runs: &Runs, calls: &str) {
    let column = Column::new(runs);
    let mut session = Session::new(&column);
    for call in calls.split(", ").map(|words| corpus::call(words).expect("a call")) {
        let said = session.call(&call);
        if call == Call::New && matches!(said, Said::Refused(_)) {
            // The program goes on with a scan that has ended.
            session.scan = Scan { state: State::Ended, ..Scan::fresh(0, 0) };
        }
        *out += &line(&call, &said, &session.scan);
    }
}

fn line(call: &Call, said: &Said, scan: &Scan) -> String {
    let mut after = format!(" | {}..{} ", scan.start, scan.end);
    match scan.state {
        State::Fresh => after += "fresh",
        State::At(i) => write!(after, "{i}").unwrap(),
        State::Ended => after += "ended",
    }
    after += &scan.value.map_or("\n".into(), |v| format!(" ({v})\n"));
    let answer = told(said);
    match call {
        Call::Set(_) => String::new(),
        Call::New if matches!(said, Said::Refused(_)) => format!("new: {answer}\n"),
        Call::New => format!("new{after}"),
        Call::Current => format!("current {answer}, "),
        Call::Pos => format!("pos {answer}\n"),
        Call::Narrow(start, end) => format!("narrow {start}..{end}: {answer}{after}"),
        call => format!("{call}: {answer}{after}"),
    }
}
