//! The Rust as the judge. Three answer the same calls: the Rust's own text, unchanged (`rust`; build.rs takes it from outside this repository), a model
//! of document 01 (`model`, of the package `document`), and the library as it is shipped (`port`, a feature). README.md of this folder says how to run it.

/// In place of the crate's forwarding macro: makes a macro that calls the same method on whatever variant there is. The text's own list of variants
/// and its own calls go in; a call reaches the variant's method and nothing else.
#[cfg(rust_text)]
#[macro_export]
macro_rules! generate_forwarder {
    ($name:ident; $($variant:ident),+) => {
        $crate::generate_forwarder!(@with ($) $name; $($variant),+);
    };
    (@with ($d:tt) $name:ident; $($variant:ident),+) => {
        macro_rules! $name {
            ($d this:ident, $d call:ident) => {
                match $d this { $(Self::$variant(scan) => scan.$d call()),+ }
            };
            ($d this:ident, $d call:ident($d argument:expr)) => {
                match $d this { $(Self::$variant(scan) => scan.$d call($d argument)),+ }
            };
        }
    };
}

// The text asks for `num::Zero`, of a package that is not here: this crate answers to that name, with the stand-in.
#[cfg(rust_text)]
extern crate self as num;
#[cfg(rust_text)]
pub use standins::Zero;

#[cfg(rust_text)]
mod standins;

/// The name under which the text asks for `ByteSized`.
#[cfg(rust_text)]
pub(crate) mod management {
    pub(crate) use crate::standins::bytesized;
}

// The Rust's text, unchanged, at its own module paths (build.rs writes the tree).
#[cfg(rust_text)]
include!(concat!(env!("OUT_DIR"), "/tree.rs"));

pub use document::{calls, corpus, model};

pub mod bitmaps;
pub mod compare;
pub mod exhaustive;
pub mod lists;
#[cfg(feature = "port")]
pub mod port;
#[cfg(not(feature = "port"))]
#[path = "port_absent.rs"]
pub mod port;
pub mod profiles;
pub mod random;
#[cfg(rust_text)]
pub mod rattle;
pub mod replay;
#[cfg(rust_text)]
pub mod rust;
#[cfg(not(rust_text))]
#[path = "rust_absent.rs"]
pub mod rust;
pub mod totals;

/// Says who is there, one line each.
pub fn announce() {
    if !env!("ORACLE_MUTANT").is_empty() {
        println!("MUTANT: the Rust's text is NOT the agreed one; its sums were not asked for");
    }
    match (rust::PRESENT, port::PRESENT) {
        (true, true) => println!("the Rust, the model and the port are compared"),
        (true, false) => println!("the port is not built in (feature `port`): the Rust and the model are compared"),
        (false, _) => println!("the Rust's text is not there (LOFTSPLICE_RUST_SOURCE): only the model and the port are compared"),
    }
    if port::PRESENT && !cfg!(feature = "listing") {
        println!("the port plays without its batch listing (feature `listing`)");
    }
    if port::PRESENT && !cfg!(feature = "record") {
        println!("the port plays without its stored record (feature `record`)");
    }
}
