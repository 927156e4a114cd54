//! Presence bitmaps.
use crate::raw::{Exported, Imported};

extern "C" {
    fn loftsplice_import(
        bytes: *const u8,
        bytes_len: usize,
        count: u64,
        starts: *mut i64,
        starts_len: usize,
        ends: *mut u64,
        ends_len: usize,
        steps: *mut i16,
        steps_len: usize,
    ) -> Imported;
    fn loftsplice_export(
        starts: *const i64,
        starts_len: usize,
        ends: *const u64,
        ends_len: usize,
        steps: *const i16,
        steps_len: usize,
        count: u64,
        out: *mut u8,
        out_len: usize,
    ) -> Exported;
}

/// The numbers of the records that are present in a bitmap of so many, built as [`build`](crate::raw::build) builds a list, into the first places of the
/// three lists, which may differ in length; places beyond stay. Record i is bit i mod 8 of byte i / 8, lowest bit first, 1 for present; bits past the count
/// are ignored. Or refused 14 (over 524,288 records), 11 (fewer bytes than these need), 1 (over 4,096 runs), 10.
///
/// ```
/// use loftsplice::raw;
///
/// let (mut starts, mut ends, mut steps) = ([0; 3], [0; 3], [9; 3]);
/// let imported = raw::import(&[0xE5, 0x01], 10, &mut starts, &mut ends, &mut steps); // 0 2, 5 6 7 8
/// assert_eq!((imported.refusal, imported.runs, imported.ones), (0, 2, 6));
/// assert_eq!((starts, ends, steps), ([0, 5, 0], [2, 6, 0], [2, 1, 9]));
/// assert_eq!(raw::import(&[0xE5], 10, &mut starts, &mut ends, &mut steps).refusal, 11);
/// ```
#[must_use]
pub fn import(
    bytes: &[u8],
    count: u64,
    starts: &mut [i64],
    ends: &mut [u64],
    steps: &mut [i16],
) -> Imported {
    // SAFETY: each pointer and length are those of a slice that is borrowed for the whole call, the three that are written of slices borrowed for
    // writing, so that they overlap with no other; and every number is allowed.
    unsafe {
        loftsplice_import(
            bytes.as_ptr(),
            bytes.len(),
            count,
            starts.as_mut_ptr(),
            starts.len(),
            ends.as_mut_ptr(),
            ends.len(),
            steps.as_mut_ptr(),
            steps.len(),
        )
    }
}

/// Writes the bitmap of so many records in which the elements of a column are present, into the first bytes of `out`, with zeros past the count in the
/// last; bytes beyond stay. Or refused 14 (over 524,288 records), 1, 2, 3, 7 (the column doesn't rise), 15 (an element is no record number), 10.
///
/// ```
/// use loftsplice::raw;
///
/// let mut out = [0xAA; 3];
/// assert_eq!(raw::export(&[0, 5], &[2, 6], &[2, 1], 10, &mut out), raw::Exported { refusal: 0, bytes: 2 });
/// assert_eq!(out, [0xE5, 0x01, 0xAA]);
/// assert_eq!(raw::export(&[0, 5], &[2, 6], &[2, 1], 8, &mut out).refusal, 15);
/// ```
#[must_use]
pub fn export(starts: &[i64], ends: &[u64], steps: &[i16], count: u64, out: &mut [u8]) -> Exported {
    // SAFETY: each pointer and length are those of a slice that is borrowed for the whole call, the one that is written of a slice borrowed for
    // writing, so that it overlaps with no other; and every number is allowed.
    unsafe {
        loftsplice_export(
            starts.as_ptr(),
            starts.len(),
            ends.as_ptr(),
            ends.len(),
            steps.as_ptr(),
            steps.len(),
            count,
            out.as_mut_ptr(),
            out.len(),
        )
    }
}
