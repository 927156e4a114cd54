//! Exact totals.
use crate::raw::Totalled;

extern "C" {
    fn loftsplice_totals(
        starts: *const i64,
        starts_len: usize,
        ends: *const u64,
        ends_len: usize,
        steps: *const i16,
        steps_len: usize,
        from: *const u64,
        from_len: usize,
        to: *const u64,
        to_len: usize,
        counts: *mut u64,
        counts_len: usize,
        leasts: *mut i64,
        leasts_len: usize,
        greatests: *mut i64,
        greatests_len: usize,
        highs: *mut i64,
        highs_len: usize,
        lows: *mut u64,
        lows_len: usize,
    ) -> Totalled;
}

/// Of each window the number of its elements, the least, the greatest and the exact sum, high × 4,294,967,296 + low ([`sum`](crate::raw::sum)), into the
/// first places of five outputs; answers the same over all windows. An empty window has count, high and low 0, and its places of least and greatest stay as
/// they were. A window need not rise, and one that occurs twice is counted twice. Or refused 1, 2, 3, 8, 5, 18 (the sum over all windows has no such high),
/// 10.
///
/// ```
/// use loftsplice::raw;
///
/// let (mut counts, mut leasts, mut greatests, mut highs, mut lows) = ([9; 2], [9; 2], [9; 2], [9; 2], [9; 2]);
/// let outputs = (&mut counts, &mut leasts, &mut greatests, &mut highs, &mut lows);
/// let all = raw::totals(
///     &[10, 6], &[2, 5], &[-15, 1], &[0, 2], &[3, 2], outputs.0, outputs.1, outputs.2, outputs.3, outputs.4, // 10 -5, 6 7 8
/// );
/// assert_eq!((all.refusal, all.count, all.found, all.least, all.greatest), (0, 3, 1, -5, 10));
/// assert_eq!(raw::sum(all.high, all.low), 11);
/// assert_eq!((counts, leasts, greatests, highs, lows), ([3, 0], [-5, 9], [10, 9], [0, 0], [11, 0]));
/// ```
#[must_use]
#[allow(
    clippy::too_many_arguments,
    reason = "a window list is two lists here, and the outputs are five, as they cross"
)]
pub fn totals(
    starts: &[i64],
    ends: &[u64],
    steps: &[i16],
    from: &[u64],
    to: &[u64],
    counts: &mut [u64],
    leasts: &mut [i64],
    greatests: &mut [i64],
    highs: &mut [i64],
    lows: &mut [u64],
) -> Totalled {
    // SAFETY: each pointer and length are those of a slice that is borrowed for the whole call, the five that are written of slices borrowed for
    // writing, so that they overlap with no other; and every number is allowed.
    unsafe {
        loftsplice_totals(
            starts.as_ptr(),
            starts.len(),
            ends.as_ptr(),
            ends.len(),
            steps.as_ptr(),
            steps.len(),
            from.as_ptr(),
            from.len(),
            to.as_ptr(),
            to.len(),
            counts.as_mut_ptr(),
            counts.len(),
            leasts.as_mut_ptr(),
            leasts.len(),
            greatests.as_mut_ptr(),
            greatests.len(),
            highs.as_mut_ptr(),
            highs.len(),
            lows.as_mut_ptr(),
            lows.len(),
        )
    }
}
