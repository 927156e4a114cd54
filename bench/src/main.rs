//! The port and the Rust timed side by side: `bash scripts/bench` from the project's root. docs/BENCHMARKS.md says what is measured and how.
//!
//!     bench [--rounds N] [--only TEXT] [--page FILE --picture FILE]
//!
//! Prints the table; with --page it is written between that file's markers as well, and with --picture the picture is drawn. With --only just the rows
//! whose name and size hold the text are timed and printed, and nothing is written.

#[cfg(not(rust_text))]
compile_error!("bench needs the Rust's text: ../shared/docs/src beside the project, or the folder that LOFTSPLICE_RUST_SOURCE names");

// The Rust's text, unchanged, at its own module paths, as in the oracle's lib.rs.
#[cfg(rust_text)]
mod text {
    pub(crate) use oracle::generate_forwarder;
}
#[cfg(rust_text)]
pub(crate) use text::generate_forwarder;
extern crate self as num;
mod standins;
pub use standins::Zero;
pub(crate) mod management {
    pub(crate) use crate::standins::bytesized;
}
#[cfg(rust_text)]
include!(concat!(env!("OUT_DIR"), "/tree.rs"));

mod bitmaps;
mod bits;
mod building;
mod calls;
mod checks;
mod clock;
mod codec;
mod columns;
mod draw;
mod fields;
mod listing;
mod page;
mod plain;
mod profiles;
mod record;
mod runs;
mod sifting;
mod totals;

use clock::Clock;

fn main() {
    let mut arguments = std::env::args().skip(1);
    let mut clock = Clock { rounds: 101, only: String::new(), rows: Vec::new() };
    let (mut file, mut picture) = (None, None);
    while let Some(argument) = arguments.next() {
        let value = arguments.next().unwrap_or_else(|| panic!("{argument} wants a value"));
        match argument.as_str() {
            "--rounds" => clock.rounds = value.parse().expect("a number of rounds"),
            "--only" => clock.only = value,
            "--page" => file = Some(value),
            "--picture" => picture = Some(value),
            _ => panic!("bench [--rounds N] [--only TEXT] [--page FILE --picture FILE]"),
        }
    }
    listing::measure(&mut clock);
    checks::measure(&mut clock);
    calls::measure(&mut clock);
    runs::measure(&mut clock);
    sifting::measure(&mut clock);
    record::measure(&mut clock);
    building::measure(&mut clock);
    bitmaps::measure(&mut clock);
    profiles::measure(&mut clock);
    totals::measure(&mut clock);
    let table = page::table(&clock);
    println!("{table}");
    if !clock.only.is_empty() {
        return; // a part of the table is for looking at, not for the page
    }
    if let Some(file) = file {
        page::write(&file, &table);
    }
    if let Some(picture) = picture {
        std::fs::write(picture, draw::svg(&clock.rows)).expect("the picture");
    }
}
