//! The calls on a column.
use crate::raw::{Answer, Difference, Emptiness, Length, Place};

extern "C" {
    fn loftsplice_check(
        starts: *const i64,
        starts_len: usize,
        ends: *const u64,
        ends_len: usize,
        steps: *const i16,
        steps_len: usize,
    ) -> u32;
    fn loftsplice_len(
        starts: *const i64,
        starts_len: usize,
        ends: *const u64,
        ends_len: usize,
        steps: *const i16,
        steps_len: usize,
    ) -> Length;
    fn loftsplice_is_empty(
        starts: *const i64,
        starts_len: usize,
        ends: *const u64,
        ends_len: usize,
        steps: *const i16,
        steps_len: usize,
    ) -> Emptiness;
    fn loftsplice_place(
        starts: *const i64,
        starts_len: usize,
        ends: *const u64,
        ends_len: usize,
        steps: *const i16,
        steps_len: usize,
        index: u64,
    ) -> Place;
    fn loftsplice_get(
        starts: *const i64,
        starts_len: usize,
        ends: *const u64,
        ends_len: usize,
        steps: *const i16,
        steps_len: usize,
        index: u64,
    ) -> Answer;
    fn loftsplice_diff_step(previous: i64, current: i64) -> Difference;
}

/// Whether the three lists are a column: 0, or refused 1, 2, 3.
///
/// ```
/// use loftsplice::raw;
///
/// assert_eq!(raw::check(&[10, 30], &[4, 5], &[5, 0]), 0); // 10 15 20 25, 30
/// assert_eq!(raw::check(&[10, 30], &[4, 4], &[5, 0]), 2);
/// ```
#[must_use]
pub fn check(starts: &[i64], ends: &[u64], steps: &[i16]) -> u32 {
    // SAFETY: each pointer and length are those of a slice that is borrowed for the whole call, and every number is allowed.
    unsafe {
        loftsplice_check(
            starts.as_ptr(),
            starts.len(),
            ends.as_ptr(),
            ends.len(),
            steps.as_ptr(),
            steps.len(),
        )
    }
}

/// The number of elements; or refused 1, 2, 3.
///
/// ```
/// use loftsplice::raw;
///
/// assert_eq!(raw::len(&[10, 30], &[4, 5], &[5, 0]), raw::Length { refusal: 0, length: 5 });
/// ```
#[must_use]
pub fn len(starts: &[i64], ends: &[u64], steps: &[i16]) -> Length {
    // SAFETY: each pointer and length are those of a slice that is borrowed for the whole call, and every number is allowed.
    unsafe {
        loftsplice_len(
            starts.as_ptr(),
            starts.len(),
            ends.as_ptr(),
            ends.len(),
            steps.as_ptr(),
            steps.len(),
        )
    }
}

/// Whether there is no element; or refused 1, 2, 3.
///
/// ```
/// use loftsplice::raw;
///
/// assert_eq!(raw::is_empty(&[], &[], &[]), raw::Emptiness { refusal: 0, empty: 1 });
/// ```
#[must_use]
pub fn is_empty(starts: &[i64], ends: &[u64], steps: &[i16]) -> Emptiness {
    // SAFETY: each pointer and length are those of a slice that is borrowed for the whole call, and every number is allowed.
    unsafe {
        loftsplice_is_empty(
            starts.as_ptr(),
            starts.len(),
            ends.as_ptr(),
            ends.len(),
            steps.as_ptr(),
            steps.len(),
        )
    }
}

/// The place of an index, (run count, 0, 0) for the length; or refused 1, 2, 3, 4.
///
/// ```
/// use loftsplice::raw;
///
/// assert_eq!(raw::place(&[10, 30], &[4, 5], &[5, 0], 3), raw::Place { refusal: 0, run: 0, offset: 3, follows: 1 });
/// assert_eq!(raw::place(&[10, 30], &[4, 5], &[5, 0], 6).refusal, 4);
/// ```
#[must_use]
pub fn place(starts: &[i64], ends: &[u64], steps: &[i16], index: u64) -> Place {
    // SAFETY: each pointer and length are those of a slice that is borrowed for the whole call, and every number is allowed.
    unsafe {
        loftsplice_place(
            starts.as_ptr(),
            starts.len(),
            ends.as_ptr(),
            ends.len(),
            steps.as_ptr(),
            steps.len(),
            index,
        )
    }
}

/// The element at an index, `found` 1; or refused 1, 2, 3, 4.
///
/// ```
/// use loftsplice::raw;
///
/// assert_eq!(raw::get(&[10, 30], &[4, 5], &[5, 0], 3), raw::Answer { refusal: 0, found: 1, value: 25 });
/// assert_eq!(raw::get(&[10, 30], &[4, 5], &[5, 0], 5).refusal, 4);
/// ```
#[must_use]
pub fn get(starts: &[i64], ends: &[u64], steps: &[i16], index: u64) -> Answer {
    // SAFETY: each pointer and length are those of a slice that is borrowed for the whole call, and every number is allowed.
    unsafe {
        loftsplice_get(
            starts.as_ptr(),
            starts.len(),
            ends.as_ptr(),
            ends.len(),
            steps.as_ptr(),
            steps.len(),
            index,
        )
    }
}

/// The step from one value to another, if there is one.
///
/// ```
/// use loftsplice::raw;
///
/// assert_eq!(raw::diff_step(10, 5), raw::Difference { found: 1, step: -5 });
/// assert_eq!(raw::diff_step(0, 32_768).found, 0);
/// ```
#[must_use]
pub fn diff_step(previous: i64, current: i64) -> Difference {
    // SAFETY: only numbers are handed over, and every number is allowed.
    unsafe { loftsplice_diff_step(previous, current) }
}
