//! Runs from a plain list.
use crate::raw::Built;

extern "C" {
    fn loftsplice_build(
        values: *const i64,
        values_len: usize,
        starts: *mut i64,
        starts_len: usize,
        ends: *mut u64,
        ends_len: usize,
        steps: *mut i16,
        steps_len: usize,
    ) -> Built;
}

/// Runs whose elements are the values, in their order, into the first places of the three lists, which may differ in length; places beyond stay. A run
/// starts with one value and step 0; its second value joins if the difference has a step, which becomes the run's; later values join while the difference
/// equals it; otherwise a new run starts. Or refused 1 (over 4,096 runs, or over 4,294,967,295 values), 10.
///
/// ```
/// use loftsplice::raw;
///
/// let (mut starts, mut ends, mut steps) = ([0; 3], [0; 3], [9; 3]);
/// let built = raw::build(&[10, 15, 20, 21], &mut starts, &mut ends, &mut steps);
/// assert_eq!((built.refusal, built.runs), (0, 2));
/// assert_eq!((starts, ends, steps), ([10, 21, 0], [3, 4, 0], [5, 0, 9]));
/// assert_eq!(raw::build(&[10, 21, 15], &mut starts, &mut ends, &mut [0]).refusal, 10);
/// ```
#[must_use]
pub fn build(values: &[i64], starts: &mut [i64], ends: &mut [u64], steps: &mut [i16]) -> Built {
    // SAFETY: each pointer and length are those of a slice that is borrowed for the whole call, those that are written of slices borrowed for writing, so
    // that they overlap with no other; and every number is allowed.
    unsafe {
        loftsplice_build(
            values.as_ptr(),
            values.len(),
            starts.as_mut_ptr(),
            starts.len(),
            ends.as_mut_ptr(),
            ends.len(),
            steps.as_mut_ptr(),
            steps.len(),
        )
    }
}
