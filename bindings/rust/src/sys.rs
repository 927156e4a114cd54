//! The only module with `unsafe`: the exported functions of the proved archive, and a safe function over each.
//!
//! Each exported function is proved to be total (it has no condition for its caller), to read only the places of the lists that it is lent, and to
//! keep no pointer. What is left to show at each call is said there. Beside the calls there is one function that puts the numbers of a scan together
//! (`scan::paired`).

mod bitmap;
mod build;
mod column;
mod filter;
mod listing;
mod profile;
mod record;
mod runs;
mod scan;
mod totals;

pub use bitmap::{export, import};
pub use build::build;
pub use column::{check, diff_step, get, is_empty, len, place};
pub use filter::{filter_current, filter_new, filter_next, filter_reset, filter_seek};
pub use listing::list;
pub use profile::{carries, carrying, filled};
pub use record::{read_record, write_record};
pub use runs::{filter_next_run, filter_seek_run, scan_next_run, scan_seek_run};
pub use scan::{scan_current, scan_narrow, scan_new, scan_next, scan_pos, scan_reset, scan_seek};
pub use totals::totals;
