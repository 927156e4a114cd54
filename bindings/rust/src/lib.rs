//! Run-length columns of `i64` whose every answer is proved.
//!
//! This crate is a thin, safe layer over the proved library. Every call is total: what can't be answered is refused, by a [`Refusal`], and a refusal
//! changes nothing.
//!
//! ```
//! use loftsplice::{Bound, Column, Filter};
//!
//! // 10 15 20 25, 30, 31, 40 140 240: a start, an end (counted from the column's beginning) and a step for each run
//! let column = Column::new(&[10, 30, 31, 40], &[4, 5, 6, 9], &[5, 0, -3, 100])?;
//! let mut scan = column.scan();
//! assert_eq!(scan.seek(16)?, Some(20));
//! assert_eq!(scan.pos(), Some(2));
//!
//! let filter = Filter::new(column.scan(), &[Bound::Exclusive(10)], &[Bound::Inclusive(40)])?;
//! let values: Vec<i64> = filter.values().collect::<Result<_, _>>()?;
//! assert_eq!(values, [15, 20, 25, 30, 31, 40]);
//! # Ok::<(), loftsplice::Refusal>(())
//! ```
//!
//! The crate is `no_std`; it needs `alloc`. What it keeps is in the values that it gives, so any number of threads may use it.
#![no_std]
#![deny(missing_docs, unsafe_code)]

extern crate alloc;

// `forbid` can't be taken back in a module: `unsafe` stands in `sys` and nowhere else. A module that is new falls under `deny` above.
#[forbid(unsafe_code)]
mod bitmap;
#[forbid(unsafe_code)]
mod bound;
#[forbid(unsafe_code)]
mod column;
#[forbid(unsafe_code)]
mod column_buf;
#[forbid(unsafe_code)]
mod filter;
#[forbid(unsafe_code)]
mod listing;
#[forbid(unsafe_code)]
mod profile;
#[forbid(unsafe_code)]
pub mod raw;
#[forbid(unsafe_code)]
mod record;
#[forbid(unsafe_code)]
mod refusal;
#[forbid(unsafe_code)]
mod run;
#[forbid(unsafe_code)]
mod scan;
#[forbid(unsafe_code)]
mod seek_each;
#[allow(unsafe_code, reason = "the calls of the proved archive")]
mod sys;
#[forbid(unsafe_code)]
mod totals;
#[forbid(unsafe_code)]
mod window;

pub use bound::{Bound, Mode, Unbounded, Variables};
pub use column::{diff_step, Column, Place};
pub use column_buf::ColumnBuf;
pub use filter::{Filter, FilterState, Values};
pub use listing::{list, list_in_mode};
pub use profile::{Fields, Profile};
pub use record::{read_record, write_record, Record};
pub use refusal::{NoRefusal, Refusal};
pub use run::{Run, Runs};
pub use scan::{Scan, ScanState};
pub use seek_each::SeekEach;
pub use totals::{Total, Totals};
