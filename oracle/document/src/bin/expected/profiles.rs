//! The program examples_profiles: columns read by profile, with the whole of the outputs, whose sixteen places hold 77 before.
use crate::{arrays, ask, told};
use document::calls::{Call, Fields, Runs, Said};

const PLACES: usize = 16;
const HELD: i64 = 77;

pub fn profiled() -> String {
    let mut out = String::from("== profiled\n");
    for profile in [1, 2, 3] {
        windows(&mut out, profile);
    }
    out += "no run\n";
    lists(&mut out, 1, 5, &Runs::default(), (1, 4));
    lists(&mut out, 2, 5, &Runs::default(), (1, 4));
    for (name, profile, count, runs, window) in [
        ("does not rise", 2, 5, arrays(&[-1, 7, 7], &[1, 2, 3], &[0, 0, 0]), (0, 9)),
        ("past an i64", 1, 5, arrays(&[i64::MAX], &[2], &[1]), (0, 9)),
        ("ends that stand", 2, 5, arrays(&[9, 9], &[1, 1], &[0, 0]), (0, 9)),
        ("no start", 1, 5, arrays(&[], &[1], &[0]), (0, 9)),
        ("17 places", 1, 50, Runs::of(&[(17, 1, 17)]), (0, 34)),
    ] {
        out += &format!("{name}\n");
        lists(&mut out, profile, count, &runs, window);
    }
    out
}

/// 3 4 5 6, 8 10 12, 20: gaps before, between, within and after runs.
fn windows(out: &mut String, profile: u8) {
    let runs = Runs::of(&[(3, 1, 4), (8, 2, 3), (20, -9, 1)]);
    let ones = [0, 3, 7, 20, 21, 22].map(|record| match ask(&runs, Call::Carries(profile, 22, record)) {
        Said::Carries(carries) => if carries { " yes" } else { " no" }.to_string(),
        other => format!(" {}", told(&other)),
    });
    *out += &format!("profile {profile}\n0, 3, 7, 20, 21, 22:{}\n", ones.concat());
    for window in [(0, 22), (5, 11), (9, 9), (30, 22), (0, 23)] {
        lists(out, profile, 22, &runs, window);
    }
    lists(out, profile, 20, &runs, (0, 21));
    lists(out, profile, 4_294_967_296, &runs, (0, 1));
    lists(out, profile, 4_294_967_295, &runs, (4_294_967_290, 4_294_967_295));
}

/// Both lists of a window.
fn lists(out: &mut String, profile: u8, count: u64, runs: &Runs, (start, end): (u64, u64)) {
    for (name, carry) in [("carrying", true), ("filled", false)] {
        let (answer, mut records) = match ask(runs, Call::Profile(Fields { profile, count, start, end, carry, places: PLACES })) {
            Said::Ran(records) => (format!("{} records", records.len()), records),
            other => (told(&other), Vec::new()),
        };
        records.resize(PLACES, HELD);
        let shown: String = records.iter().map(|record| format!(" {record}")).collect();
        *out += &format!("{name}, {answer}:{shown}\n");
    }
}
