use core::ops::{Bound, RangeBounds};

/// The window of any range, over a column of so many elements: its first index and its end. An open end is the column's. Where the next number is no
/// `u64`, the greatest one stands for it: as a start it is past every column, so the window is empty, and as an end it is past every column too, so it
/// is refused.
pub(crate) fn of(range: &impl RangeBounds<u64>, length: u64) -> (u64, u64) {
    let start = match range.start_bound() {
        Bound::Included(&first) => first,
        Bound::Excluded(&before) => before.saturating_add(1),
        Bound::Unbounded => 0,
    };
    let end = match range.end_bound() {
        Bound::Included(&last) => last.saturating_add(1),
        Bound::Excluded(&end) => end,
        Bound::Unbounded => length,
    };
    (start, end)
}
