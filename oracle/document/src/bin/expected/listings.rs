//! The program examples_listings: batch listings and totals, with the whole of the outputs, so that what a call leaves alone shows too.
use crate::{arrays, ask, c, d, far, told};
use document::calls::{Bound, Call, Listing, Runs, Said};
use document::corpus;

/// What the places of the outputs hold before.
const OUT: i64 = -7;
const COUNT: u64 = 99;

pub fn listed() -> String {
    let mut out = String::from("== listed\nC\n");
    asked(&mut out, &c(), &["0 9 - - 16 8", "0 9 x10 i40 16 8", "0,3,3,8 9,8,8,2 i25,x25 i140 16 8", "0,0 9,9 - i15,x15 16 8"]);
    asked(&mut out, &c(), &["strict 0,0 9,9 - i15,x15 16 8", "strict 0 9 i15,x15 i40,x40 16 8"]);
    asked(&mut out, &c(), &["4,18446744073709551615,100,6 5,4,9,9 i31 x240 16 8", "- - x0 - 16 8"]);
    out += "D\n";
    asked(&mut out, &d(), &["1,1,2,0 5,5,4,1 - - 16 8", "1,1,2 5,4,4 x5 x8 16 8", "1,0 5,2 - - 16 8", "0,1 5,6 - - 16 8"]);
    out += "room\n";
    asked(&mut out, &c(), &["0,1 9,8 i20 i40 10 2", "0,1 9,8 i20 i40 9 2"]);
    asked(&mut out, &d(), &["1 5 - - 16 1", "1,2 5,5 - - 16 1", "0,0 6,5 - - 16 1", "0,0 5,5 - - 16 1"]);
    out += "too many\n";
    asked(&mut out, &c(), &["0,0 9 - - 16 8"]);
    too_many(&mut out);
    out += "far\n";
    asked(&mut out, &far(), &["0,1 5,4 i-9223372036854775808 i9223372036854775807 16 8"]);
    asked(&mut out, &far(), &["0,1 5,4 x-9223372036854775808 x9223372036854775807 16 8"]);
    out += "damaged\n";
    asked(&mut out, &arrays(&[10, 6], &[2, 2], &[-5, 1]), &["0 99 - - 16 8"]);
    out
}

/// Over 16 bounds and over 256 windows, and just as many.
fn too_many(out: &mut String) {
    for n in [17, 16] {
        let lower = vec![Bound { value: 0, exclusive: false }; n];
        line(out, &c(), Listing { from: vec![0], to: vec![10], lower, room: 16, counts: 8, ..Listing::default() });
    }
    for (n, end, counts) in [(256, 0, 256), (257, 10, 1)] {
        line(out, &c(), Listing { from: vec![7; n], to: vec![end; n], room: 1, counts, ..Listing::default() });
    }
}

/// Listings in the words of a corpus: the mode where it is not `crate`, starts, ends, lower and upper bounds, room, places for counts.
fn asked(out: &mut String, runs: &Runs, listings: &[&str]) {
    for words in listings {
        let Ok(Call::List(listing)) = corpus::call(&format!("list {words}")) else { panic!("'{words}' is no listing") };
        line(out, runs, listing);
    }
}

fn line(out: &mut String, runs: &Runs, listing: Listing) {
    let (mut values, mut numbers) = (vec![OUT; listing.room], vec![COUNT; listing.counts]);
    let answer = match ask(runs, Call::List(listing)) {
        Said::Listed { sum, counts, out } => {
            values[..out.len()].copy_from_slice(&out);
            numbers[..counts.len()].copy_from_slice(&counts);
            sum.to_string()
        }
        other => told(&other),
    };
    let values: String = values.iter().map(|v| format!(" {v}")).collect();
    let numbers: String = numbers.iter().map(|n| format!(" {n}")).collect();
    *out += &format!("{answer} |{values} |{numbers}\n");
}

/// Totals in the words of a corpus, starts and ends; three places in each output.
pub fn totalled() -> String {
    let mut out = String::from("== totalled\nD\n");
    for words in ["0 5", "0,3,4 3,3,2", "1,1 4,4", "- -", "5,9 5,0", "0*4 5*4", "0*4 5*3,6", "0*4 5*3"] {
        totals(&mut out, &d(), words);
    }
    out += "below zero\n";
    totals(&mut out, &Runs::of(&[(-3, -5, 2)]), "0,1 2,2");
    out += "longest\n";
    for words in ["0 4294967295", "0,7 4294967295,8", "0,7 4294967295,9", "0*4 4294967295*4"] {
        totals(&mut out, &Runs::of(&[(i64::MIN, 0, 4_294_967_295)]), words);
    }
    out += "damaged\n";
    totals(&mut out, &arrays(&[10, 6], &[2, 2], &[-5, 1]), "0,0 9");
    out
}

fn totals(out: &mut String, runs: &Runs, words: &str) {
    let (mut counts, mut lows) = ([COUNT; 3], [COUNT; 3]);
    let (mut leasts, mut greatests, mut highs) = ([OUT; 3], [OUT; 3], [OUT; 3]);
    let answer = match ask(runs, corpus::call(&format!("totals {words} 3")).expect("totals")) {
        Said::Totalled { all, windows } => {
            for (i, window) in windows.iter().enumerate() {
                (counts[i], highs[i], lows[i]) = (window.count, window.high, window.low);
                (leasts[i], greatests[i]) = window.edges.unwrap_or((OUT, OUT));
            }
            let edges = all.edges.map_or(" of none".into(), |(least, greatest)| format!(" from {least} to {greatest}"));
            format!("{}{edges}, sum {} {}", all.count, all.high, all.low)
        }
        other => told(&other),
    };
    let numbers = |places: [u64; 3]| places.iter().map(|n| format!(" {n}")).collect::<String>();
    let values = |places: [i64; 3]| places.iter().map(|v| format!(" {v}")).collect::<String>();
    let signed = [leasts, greatests, highs].map(|places| format!(" |{}", values(places))).concat();
    *out += &format!("{answer} |{}{signed} |{}\n", numbers(counts), numbers(lows));
}
