//! The stored record.
use crate::raw::{ReadRecord, Written};

extern "C" {
    fn loftsplice_read_record(
        bytes: *const u8,
        bytes_len: usize,
        starts: *mut i64,
        starts_len: usize,
        ends: *mut u64,
        ends_len: usize,
        steps: *mut i16,
        steps_len: usize,
    ) -> ReadRecord;
    fn loftsplice_write_record(
        starts: *const i64,
        starts_len: usize,
        ends: *const u64,
        ends_len: usize,
        steps: *const i16,
        steps_len: usize,
        out: *mut u8,
        out_len: usize,
    ) -> Written;
}

/// Reads the record at the front of the bytes into the first places of the three lists; or refused 11, 13, 12, 10, 2, 3.
///
/// ```
/// use loftsplice::raw;
///
/// let bytes = [16, 0, 0, 0, 1, 0, 10, 0, 0, 0, 0, 0, 0, 0, 251, 255, 2, 0, 0, 0];
/// let (mut starts, mut ends, mut steps) = ([0i64; 1], [0u64; 1], [0i16; 1]);
/// let read = raw::read_record(&bytes, &mut starts, &mut ends, &mut steps);
/// assert_eq!((read.runs, read.used, starts, ends, steps), (1, 20, [10], [2], [-5]));
/// ```
#[must_use]
pub fn read_record(
    bytes: &[u8],
    starts: &mut [i64],
    ends: &mut [u64],
    steps: &mut [i16],
) -> ReadRecord {
    // SAFETY: each pointer and length are those of a slice that is borrowed for the whole call, the three that are written of slices borrowed for
    // writing, so that they overlap with no other; and every number is allowed.
    unsafe {
        loftsplice_read_record(
            bytes.as_ptr(),
            bytes.len(),
            starts.as_mut_ptr(),
            starts.len(),
            ends.as_mut_ptr(),
            ends.len(),
            steps.as_mut_ptr(),
            steps.len(),
        )
    }
}

/// Writes a column's record into the first places of `out`; or refused 1, 2, 3, 10.
///
/// ```
/// use loftsplice::raw;
///
/// let mut out = [0u8; 20];
/// assert_eq!(raw::write_record(&[10], &[2], &[-5], &mut out), raw::Written { refusal: 0, bytes: 20 });
/// assert_eq!(out[14..], [251, 255, 2, 0, 0, 0]);
/// ```
#[must_use]
pub fn write_record(starts: &[i64], ends: &[u64], steps: &[i16], out: &mut [u8]) -> Written {
    // SAFETY: each pointer and length are those of a slice that is borrowed for the whole call, the one that is written of a slice borrowed for
    // writing, so that it overlaps with no other; and every number is allowed.
    unsafe {
        loftsplice_write_record(
            starts.as_ptr(),
            starts.len(),
            ends.as_ptr(),
            ends.len(),
            steps.as_ptr(),
            steps.len(),
            out.as_mut_ptr(),
            out.len(),
        )
    }
}
