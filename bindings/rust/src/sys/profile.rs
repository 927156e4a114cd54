//! Columns read by profile.
use crate::raw::{Carried, Records};

extern "C" {
    fn loftsplice_carries(
        profile: u32,
        count: u64,
        starts: *const i64,
        starts_len: usize,
        ends: *const u64,
        ends_len: usize,
        steps: *const i16,
        steps_len: usize,
        record: u64,
    ) -> Carried;
    fn loftsplice_carrying(
        profile: u32,
        count: u64,
        starts: *const i64,
        starts_len: usize,
        ends: *const u64,
        ends_len: usize,
        steps: *const i16,
        steps_len: usize,
        start: u64,
        end: u64,
        out: *mut u64,
        out_len: usize,
    ) -> Records;
    fn loftsplice_filled(
        profile: u32,
        count: u64,
        starts: *const i64,
        starts_len: usize,
        ends: *const u64,
        ends_len: usize,
        steps: *const i16,
        steps_len: usize,
        start: u64,
        end: u64,
        out: *mut u64,
        out_len: usize,
    ) -> Records;
}

/// Whether one of so many records carries the field, by a profile of the column: 1, its elements are the records that carry it, or 2, those that leave it
/// empty. Or refused 16 (another profile), 14 (over 4,294,967,295 records), 1, 2, 3, 7 (the column doesn't rise), 15 (an element is no record number), 4
/// (the record is none).
///
/// ```
/// use loftsplice::raw;
///
/// let carries = |profile, record| raw::carries(profile, 10, &[0, 5], &[2, 6], &[2, 1], record); // 0 2, 5 6 7 8
/// assert_eq!(carries(raw::LISTS_CARRYING, 5), raw::Carried { refusal: 0, carries: 1 });
/// assert_eq!(carries(raw::LISTS_EMPTY, 5), raw::Carried { refusal: 0, carries: 0 });
/// assert_eq!(carries(3, 5).refusal, 16);
/// assert_eq!(carries(raw::LISTS_CARRYING, 10).refusal, 4);
/// ```
#[must_use]
pub fn carries(
    profile: u32,
    count: u64,
    starts: &[i64],
    ends: &[u64],
    steps: &[i16],
    record: u64,
) -> Carried {
    // SAFETY: each pointer and length are those of a slice that is borrowed for the whole call; and every number is allowed.
    unsafe {
        loftsplice_carries(
            profile,
            count,
            starts.as_ptr(),
            starts.len(),
            ends.as_ptr(),
            ends.len(),
            steps.as_ptr(),
            steps.len(),
            record,
        )
    }
}

/// Writes the records of the window `start..end` that carry the field into the first places of `out`, in order; places beyond stay. Or refused as
/// [`carries`], but for 4, and then 5 (the window's end is above the count), 10.
///
/// ```
/// use loftsplice::raw;
///
/// let mut out = [77; 4];
/// let written = raw::carrying(raw::LISTS_CARRYING, 10, &[0, 5], &[2, 6], &[2, 1], 1, 7, &mut out); // 0 2, 5 6 7 8
/// assert_eq!(written, raw::Records { refusal: 0, written: 3 });
/// assert_eq!(out, [2, 5, 6, 77]);
/// ```
#[must_use]
#[allow(
    clippy::too_many_arguments,
    reason = "a call of C, as it is: the lists, and what is asked"
)]
pub fn carrying(
    profile: u32,
    count: u64,
    starts: &[i64],
    ends: &[u64],
    steps: &[i16],
    start: u64,
    end: u64,
    out: &mut [u64],
) -> Records {
    // SAFETY: each pointer and length are those of a slice that is borrowed for the whole call, the one that is written of a slice borrowed for
    // writing, so that it overlaps with no other; and every number is allowed.
    unsafe {
        loftsplice_carrying(
            profile,
            count,
            starts.as_ptr(),
            starts.len(),
            ends.as_ptr(),
            ends.len(),
            steps.as_ptr(),
            steps.len(),
            start,
            end,
            out.as_mut_ptr(),
            out.len(),
        )
    }
}

/// The same of the records that do not carry the field: those that are filled. Each record of the window is in exactly one of the two lists.
///
/// ```
/// use loftsplice::raw;
///
/// let mut out = [77; 4];
/// let written = raw::filled(raw::LISTS_CARRYING, 10, &[0, 5], &[2, 6], &[2, 1], 1, 7, &mut out); // 0 2, 5 6 7 8
/// assert_eq!(written, raw::Records { refusal: 0, written: 3 });
/// assert_eq!(out, [1, 3, 4, 77]);
/// ```
#[must_use]
#[allow(
    clippy::too_many_arguments,
    reason = "a call of C, as it is: the lists, and what is asked"
)]
pub fn filled(
    profile: u32,
    count: u64,
    starts: &[i64],
    ends: &[u64],
    steps: &[i16],
    start: u64,
    end: u64,
    out: &mut [u64],
) -> Records {
    // SAFETY: each pointer and length are those of a slice that is borrowed for the whole call, the one that is written of a slice borrowed for
    // writing, so that it overlaps with no other; and every number is allowed.
    unsafe {
        loftsplice_filled(
            profile,
            count,
            starts.as_ptr(),
            starts.len(),
            ends.as_ptr(),
            ends.len(),
            steps.as_ptr(),
            steps.len(),
            start,
            end,
            out.as_mut_ptr(),
            out.len(),
        )
    }
}
