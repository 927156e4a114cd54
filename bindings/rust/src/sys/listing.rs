//! The batch listing.
use crate::raw::Listed;

extern "C" {
    fn loftsplice_list(
        starts: *const i64,
        starts_len: usize,
        ends: *const u64,
        ends_len: usize,
        steps: *const i16,
        steps_len: usize,
        from: *const u64,
        from_len: usize,
        to: *const u64,
        to_len: usize,
        mode: u32,
        lower_values: *const i64,
        lower_values_len: usize,
        lower_kinds: *const u8,
        lower_kinds_len: usize,
        upper_values: *const i64,
        upper_values_len: usize,
        upper_kinds: *const u8,
        upper_kinds_len: usize,
        out: *mut i64,
        out_len: usize,
        counts: *mut u64,
        counts_len: usize,
    ) -> Listed;
}

/// Writes the values of each window that meet the constant bounds into `out`, window by window, and each window's number of values into `counts`;
/// answers their sum. One mode for all windows. Or refused 100, 1, 2, 3, 8, 5, 7, 10.
///
/// ```
/// use loftsplice::raw;
///
/// let (mut out, mut counts) = ([0i64; 8], [0u64; 2]);
/// let listed =
///     raw::list(&[10, 30], &[4, 5], &[5, 0], &[0, 2], &[5, 5], raw::INCLUSIVE_WINS, &[15], &[2], &[], &[], &mut out, &mut counts);
/// assert_eq!((listed.refusal, listed.sum, counts), (0, 6, [3, 3]));
/// assert_eq!(out, [20, 25, 30, 20, 25, 30, 0, 0]);
/// ```
#[must_use]
#[allow(
    clippy::too_many_arguments,
    reason = "a window list, a bound list and an output are two lists each here, as they cross"
)]
pub fn list(
    starts: &[i64],
    ends: &[u64],
    steps: &[i16],
    from: &[u64],
    to: &[u64],
    mode: u32,
    lower_values: &[i64],
    lower_kinds: &[u8],
    upper_values: &[i64],
    upper_kinds: &[u8],
    out: &mut [i64],
    counts: &mut [u64],
) -> Listed {
    // SAFETY: each pointer and length are those of a slice that is borrowed for the whole call, the two that are written of slices borrowed for
    // writing, so that they overlap with no other; and every number is allowed.
    unsafe {
        loftsplice_list(
            starts.as_ptr(),
            starts.len(),
            ends.as_ptr(),
            ends.len(),
            steps.as_ptr(),
            steps.len(),
            from.as_ptr(),
            from.len(),
            to.as_ptr(),
            to.len(),
            mode,
            lower_values.as_ptr(),
            lower_values.len(),
            lower_kinds.as_ptr(),
            lower_kinds.len(),
            upper_values.as_ptr(),
            upper_values.len(),
            upper_kinds.as_ptr(),
            upper_kinds.len(),
            out.as_mut_ptr(),
            out.len(),
            counts.as_mut_ptr(),
            counts.len(),
        )
    }
}
