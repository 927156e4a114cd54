//! The calls as they cross to the proved library: numbers and lists of numbers. Every function takes any numbers and lists of any lengths: what
//! can't be answered is refused, by number, in `refusal` (0: accepted). This is for columns, scans and filters that are not known to be good;
//! [`crate::Column`], [`crate::Scan`] and [`crate::Filter`] are simpler where they are.
//!
//! ```
//! use loftsplice::raw;
//!
//! assert_eq!(raw::check(&[1, 2], &[3], &[0, 0]), 1);
//! let scan = raw::Scan { start: 0, end: 3, index: 0, value: 0, state: 77, found: 0 };
//! let moved = raw::scan_next(scan, &[1], &[3], &[0]);
//! assert_eq!(moved.answer.refusal, raw::FORM);
//! assert_eq!(moved.scan, scan);
//! ```

mod filter;

pub use crate::sys::{
    build, carries, carrying, check, diff_step, export, filled, filter_current, filter_new,
    filter_next, filter_next_run, filter_reset, filter_seek, filter_seek_run, get, import,
    is_empty, len, list, place, read_record, scan_current, scan_narrow, scan_new, scan_next,
    scan_next_run, scan_pos, scan_reset, scan_seek, scan_seek_run, totals, write_record,
};
pub use filter::{Filter, FilterRan, Limit, NewFilter, Reset, Sifted, Variables};

/// Runs that a column has at most; more are refused 1.
pub const MAX_RUNS: usize = 4096;
/// Elements that a column has at most; more are refused 2.
pub const MAX_ELEMENTS: u64 = 4_294_967_295;
/// Bytes of the longest record, that of [`MAX_RUNS`] runs.
pub const MAX_RECORD: usize = HEAD_BYTES + RUN_BYTES * MAX_RUNS;
/// Records that a bitmap has at most; more are refused 14.
pub const MAX_RECORDS: u64 = 524_288;
/// Records that a profile is read of at most; more are refused 14.
pub const MAX_PROFILE_RECORDS: u64 = 4_294_967_295;
/// Bounds that a list has at most; more are refused 8.
pub const MAX_BOUNDS: usize = 16;
/// Inputs that variable bounds are handed at most; more are refused 8.
pub const MAX_INPUTS: usize = 8;
/// Windows that a listing, or a call for totals, takes at most; more are refused 8.
pub const MAX_WINDOWS: usize = 256;

/// Bytes of a record before its first run: length and kind.
pub(crate) const HEAD_BYTES: usize = 6;
/// Bytes of a run in a record: start, step and number of elements.
pub(crate) const RUN_BYTES: usize = 14;

/// A number of places of a list, as the library gives it.
#[allow(
    clippy::cast_possible_truncation,
    reason = "it is at most the length of a list that is there, or one of the limits above"
)]
pub(crate) const fn places(number: u64) -> usize {
    number as usize
}

/// The refusal of a number that is no state, kind, mode or `found`, and of two lists that belong together and differ in length; tried before all others.
pub const FORM: u32 = 100;

/// State of a scan: before its window's first element.
pub const FRESH: u32 = 0;
/// State of a scan: at an index.
pub const AT: u32 = 1;
/// State of a scan: past its window.
pub const ENDED: u32 = 2;

/// State of a filter: no call has moved it yet.
pub const BEFORE: u32 = 0;
/// State of a filter: at an element that meets the bounds.
pub const WITHIN: u32 = 1;
/// State of a filter: past the last one.
pub const AFTER: u32 = 2;

/// Kind of a limit: no bound. In a list of bounds it is refused [`FORM`].
pub const FREE: u32 = 0;
/// Kind of a bound: the value itself meets it.
pub const INCLUSIVE: u32 = 1;
/// Kind of a bound: the value itself does not meet it.
pub const EXCLUSIVE: u32 = 2;

/// Profile of a column: it lists the records that carry the field.
pub const LISTS_CARRYING: u32 = 1;
/// Profile of a column: it lists the records that leave the field empty.
pub const LISTS_EMPTY: u32 = 2;

/// Mode of a filter or listing: of two upper bounds of one value the inclusive one wins.
pub const INCLUSIVE_WINS: u32 = 1;
/// Mode of a filter or listing: of two upper bounds of one value the exclusive one wins.
pub const EXCLUSIVE_WINS: u32 = 2;

/// The state in a scan or filter that was refused when it was made: no state, so that each call on it is refused [`FORM`].
pub const NO_STATE: u32 = u32::MAX;

/// A window and a state; the index is read only when [`AT`], and given as 0 otherwise. And what the scan carries: `found` 1 and the element that it is
/// at, or 0, when fresh or ended; any other `found` is refused [`FORM`]. The value is read only where `found` is 1, and given as 0 where it is 0. The
/// default, all 0, is fresh over an empty window.
#[repr(C)]
#[derive(Clone, Copy, Debug, Default, PartialEq, Eq, Hash)]
pub struct Scan {
    /// The window's first index.
    pub start: u64,
    /// The window's end.
    pub end: u64,
    /// An index.
    pub index: u64,
    /// The value that is carried.
    pub value: i64,
    /// A state.
    pub state: u32,
    /// 1 or 0.
    pub found: u32,
}

/// The number of elements.
#[repr(C)]
#[derive(Clone, Copy, Debug, PartialEq, Eq, Hash)]
pub struct Length {
    /// The refusal's number, or 0.
    pub refusal: u32,
    /// The number of elements.
    pub length: u64,
}

/// 1 if there is no element, else 0.
#[repr(C)]
#[derive(Clone, Copy, Debug, PartialEq, Eq, Hash)]
pub struct Emptiness {
    /// The refusal's number, or 0.
    pub refusal: u32,
    /// 1 or 0.
    pub empty: u32,
}

/// The run that an index lies in, from 0, its offset there, and how many elements there are from that index to the end of the run.
#[repr(C)]
#[derive(Clone, Copy, Debug, PartialEq, Eq, Hash)]
pub struct Place {
    /// The refusal's number, or 0.
    pub refusal: u32,
    /// The run.
    pub run: u64,
    /// The offset in it.
    pub offset: u64,
    /// The number of elements from the index to the end of the run; 0 for the length.
    pub follows: u64,
}

/// `found` 1 and the step, or 0: there is none.
#[repr(C)]
#[derive(Clone, Copy, Debug, PartialEq, Eq, Hash)]
pub struct Difference {
    /// 1 or 0.
    pub found: u32,
    /// The step.
    pub step: i16,
}

/// `found` 1 and the element, or 0: none.
#[repr(C)]
#[derive(Clone, Copy, Debug, PartialEq, Eq, Hash)]
pub struct Answer {
    /// The refusal's number, or 0.
    pub refusal: u32,
    /// 1 or 0.
    pub found: u32,
    /// A value.
    pub value: i64,
}

/// `found` 1 and the index, or 0: none.
#[repr(C)]
#[derive(Clone, Copy, Debug, PartialEq, Eq, Hash)]
pub struct Position {
    /// The refusal's number, or 0.
    pub refusal: u32,
    /// 1 or 0.
    pub found: u32,
    /// An index.
    pub index: u64,
}

/// A new scan; if refused, one in state [`NO_STATE`].
#[repr(C)]
#[derive(Clone, Copy, Debug, PartialEq, Eq, Hash)]
pub struct NewScan {
    /// The refusal's number, or 0.
    pub refusal: u32,
    /// The scan.
    pub scan: Scan,
}

/// The scan as the call leaves it, and the answer. A refusal: the scan as it went in, every number of it.
#[repr(C)]
#[derive(Clone, Copy, Debug, PartialEq, Eq, Hash)]
pub struct Moved {
    /// The scan.
    pub scan: Scan,
    /// The answer.
    pub answer: Answer,
}

/// The scan as a run of calls leaves it, and the number of values that they gave. A refusal: the scan as it went in, every number of it.
#[repr(C)]
#[derive(Clone, Copy, Debug, PartialEq, Eq, Hash)]
pub struct Ran {
    /// The scan.
    pub scan: Scan,
    /// The refusal's number, or 0.
    pub refusal: u32,
    /// The number of values.
    pub count: u64,
}

/// The number of values written.
#[repr(C)]
#[derive(Clone, Copy, Debug, PartialEq, Eq, Hash)]
pub struct Listed {
    /// The refusal's number, or 0.
    pub refusal: u32,
    /// The number of values written.
    pub sum: u64,
}

/// The run count, and the bytes that the record takes.
#[repr(C)]
#[derive(Clone, Copy, Debug, PartialEq, Eq, Hash)]
pub struct ReadRecord {
    /// The refusal's number, or 0.
    pub refusal: u32,
    /// The run count.
    pub runs: u64,
    /// The bytes that the record takes.
    pub used: u64,
}

/// The number of bytes written.
#[repr(C)]
#[derive(Clone, Copy, Debug, PartialEq, Eq, Hash)]
pub struct Written {
    /// The refusal's number, or 0.
    pub refusal: u32,
    /// The number of bytes written.
    pub bytes: u64,
}

/// The run count.
#[repr(C)]
#[derive(Clone, Copy, Debug, PartialEq, Eq, Hash)]
pub struct Built {
    /// The refusal's number, or 0.
    pub refusal: u32,
    /// The run count.
    pub runs: u64,
}

/// The run count, and the number of records that are present.
#[repr(C)]
#[derive(Clone, Copy, Debug, PartialEq, Eq, Hash)]
pub struct Imported {
    /// The refusal's number, or 0.
    pub refusal: u32,
    /// The run count.
    pub runs: u64,
    /// The number of ones, which is that of the elements.
    pub ones: u64,
}

/// The number of bytes of a bitmap.
#[repr(C)]
#[derive(Clone, Copy, Debug, PartialEq, Eq, Hash)]
pub struct Exported {
    /// The refusal's number, or 0.
    pub refusal: u32,
    /// The number of bytes written.
    pub bytes: u64,
}

/// Whether a record carries the field.
#[repr(C)]
#[derive(Clone, Copy, Debug, PartialEq, Eq, Hash)]
pub struct Carried {
    /// The refusal's number, or 0.
    pub refusal: u32,
    /// 1 if it does, else 0.
    pub carries: u32,
}

/// The number of records of a window.
#[repr(C)]
#[derive(Clone, Copy, Debug, PartialEq, Eq, Hash)]
pub struct Records {
    /// The refusal's number, or 0.
    pub refusal: u32,
    /// The number of records written.
    pub written: u64,
}

/// Over all windows: the number of elements, the least and the greatest, and the exact sum.
#[repr(C)]
#[derive(Clone, Copy, Debug, PartialEq, Eq, Hash)]
pub struct Totalled {
    /// The refusal's number, or 0.
    pub refusal: u32,
    /// 1 if there is an element, and so a least and a greatest, else 0.
    pub found: u32,
    /// The number of elements.
    pub count: u64,
    /// The least, 0 where `found` is 0.
    pub least: i64,
    /// The greatest, 0 where `found` is 0.
    pub greatest: i64,
    /// The sum's high.
    pub high: i64,
    /// Its low, below 4,294,967,296.
    pub low: u64,
}

/// The sum of its high and its low: high × 4,294,967,296 + low.
///
/// ```
/// use loftsplice::raw;
///
/// assert_eq!(raw::sum(0, 25), 25);
/// assert_eq!(raw::sum(-1, 4_294_967_295), -1);
/// assert_eq!(raw::sum(i64::MIN, 0), -(1 << 95));
/// ```
#[must_use]
pub const fn sum(high: i64, low: u64) -> i128 {
    high as i128 * 4_294_967_296 + low as i128
}
