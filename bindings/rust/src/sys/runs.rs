//! Runs of calls on a scan, and on a filter.
use crate::raw::{Filter, FilterRan, Ran, Scan, Variables};

extern "C" {
    fn loftsplice_scan_next_run(
        scan: Scan,
        starts: *const i64,
        starts_len: usize,
        ends: *const u64,
        ends_len: usize,
        steps: *const i16,
        steps_len: usize,
        out: *mut i64,
        out_len: usize,
    ) -> Ran;
    fn loftsplice_scan_seek_run(
        scan: Scan,
        starts: *const i64,
        starts_len: usize,
        ends: *const u64,
        ends_len: usize,
        steps: *const i16,
        steps_len: usize,
        targets: *const i64,
        targets_len: usize,
        out: *mut i64,
        out_len: usize,
    ) -> Ran;
    fn loftsplice_filter_next_run(
        filter: Filter,
        starts: *const i64,
        starts_len: usize,
        ends: *const u64,
        ends_len: usize,
        steps: *const i16,
        steps_len: usize,
        lower_inputs: *const u64,
        lower_inputs_len: usize,
        lower_kinds: *const u8,
        lower_kinds_len: usize,
        upper_inputs: *const u64,
        upper_inputs_len: usize,
        upper_kinds: *const u8,
        upper_kinds_len: usize,
        input_values: *const i64,
        input_values_len: usize,
        input_found: *const u8,
        input_found_len: usize,
        out: *mut i64,
        out_len: usize,
    ) -> FilterRan;
    fn loftsplice_filter_seek_run(
        filter: Filter,
        starts: *const i64,
        starts_len: usize,
        ends: *const u64,
        ends_len: usize,
        steps: *const i16,
        steps_len: usize,
        targets: *const i64,
        targets_len: usize,
        lower_inputs: *const u64,
        lower_inputs_len: usize,
        lower_kinds: *const u8,
        lower_kinds_len: usize,
        upper_inputs: *const u64,
        upper_inputs_len: usize,
        upper_kinds: *const u8,
        upper_kinds_len: usize,
        input_values: *const i64,
        input_values_len: usize,
        input_found: *const u8,
        input_found_len: usize,
        out: *mut i64,
        out_len: usize,
    ) -> FilterRan;
}

/// As many [`scan_next`](crate::raw::scan_next) as `out` has places, behind one check of the column, up to the first none. The values stand in the first
/// places of `out`, and places beyond stay. Or refused 100, 1, 2, 3, 6.
///
/// ```
/// use loftsplice::raw;
///
/// let scan = raw::scan_new(&[10, 30], &[4, 5], &[5, 0]).scan;
/// let mut out = [0; 3];
/// let ran = raw::scan_next_run(scan, &[10, 30], &[4, 5], &[5, 0], &mut out);
/// assert_eq!((ran.refusal, ran.count, out), (0, 3, [10, 15, 20]));
/// let ran = raw::scan_next_run(ran.scan, &[10, 30], &[4, 5], &[5, 0], &mut out);
/// assert_eq!((ran.scan.state, ran.count, out), (raw::ENDED, 2, [25, 30, 20]));
/// ```
#[must_use]
pub fn scan_next_run(
    scan: Scan,
    starts: &[i64],
    ends: &[u64],
    steps: &[i16],
    out: &mut [i64],
) -> Ran {
    // SAFETY: each pointer and length are those of a slice that is borrowed for the whole call, the one that is written of a slice borrowed for
    // writing, so that it overlaps with no other; and every number is allowed.
    unsafe {
        loftsplice_scan_next_run(
            scan,
            starts.as_ptr(),
            starts.len(),
            ends.as_ptr(),
            ends.len(),
            steps.as_ptr(),
            steps.len(),
            out.as_mut_ptr(),
            out.len(),
        )
    }
}

/// A [`scan_seek`](crate::raw::scan_seek) of each target in turn, in any order, behind one check of the column, up to the first none. The values stand in
/// the first places of `out`, and places beyond stay. Or refused 100, 1, 2, 3, 6, 7, 10.
///
/// ```
/// use loftsplice::raw;
///
/// let scan = raw::scan_new(&[10, 30], &[4, 5], &[5, 0]).scan;
/// let mut out = [0; 3];
/// let ran = raw::scan_seek_run(scan, &[10, 30], &[4, 5], &[5, 0], &[15, 16, 31], &mut out);
/// assert_eq!((ran.scan.state, ran.count, out), (raw::ENDED, 2, [15, 20, 0]));
/// ```
#[must_use]
pub fn scan_seek_run(
    scan: Scan,
    starts: &[i64],
    ends: &[u64],
    steps: &[i16],
    targets: &[i64],
    out: &mut [i64],
) -> Ran {
    // SAFETY: each pointer and length are those of a slice that is borrowed for the whole call, the one that is written of a slice borrowed for
    // writing, so that it overlaps with no other; and every number is allowed.
    unsafe {
        loftsplice_scan_seek_run(
            scan,
            starts.as_ptr(),
            starts.len(),
            ends.as_ptr(),
            ends.len(),
            steps.as_ptr(),
            steps.len(),
            targets.as_ptr(),
            targets.len(),
            out.as_mut_ptr(),
            out.len(),
        )
    }
}

/// As many [`filter_next`](crate::raw::filter_next) as `out` has places, with the same variable bounds, up to the first none. The values stand in the
/// first places of `out`, and places beyond stay. Or refused 100, 1, 2, 3, 6, 8, 7, 9.
///
/// ```
/// use loftsplice::raw;
///
/// let (starts, ends, steps) = ([10, 30], [4, 5], [5, 0]);
/// let scan = raw::scan_new(&starts, &ends, &steps).scan;
/// let filter = raw::filter_new(scan, raw::INCLUSIVE_WINS, &[10], &[2], &[25], &[1]).filter;
/// let mut out = [0; 4];
/// let ran = raw::filter_next_run(filter, &starts, &ends, &steps, raw::Variables::default(), &mut out);
/// assert_eq!((ran.filter.state, ran.count, out), (raw::AFTER, 3, [15, 20, 25, 0]));
/// ```
#[must_use]
pub fn filter_next_run(
    filter: Filter,
    starts: &[i64],
    ends: &[u64],
    steps: &[i16],
    variables: Variables<'_>,
    out: &mut [i64],
) -> FilterRan {
    // SAFETY: each pointer and length are those of a slice that is borrowed for the whole call, the one that is written of a slice borrowed for
    // writing, so that it overlaps with no other; and every number is allowed.
    unsafe {
        loftsplice_filter_next_run(
            filter,
            starts.as_ptr(),
            starts.len(),
            ends.as_ptr(),
            ends.len(),
            steps.as_ptr(),
            steps.len(),
            variables.lower_inputs.as_ptr(),
            variables.lower_inputs.len(),
            variables.lower_kinds.as_ptr(),
            variables.lower_kinds.len(),
            variables.upper_inputs.as_ptr(),
            variables.upper_inputs.len(),
            variables.upper_kinds.as_ptr(),
            variables.upper_kinds.len(),
            variables.input_values.as_ptr(),
            variables.input_values.len(),
            variables.input_found.as_ptr(),
            variables.input_found.len(),
            out.as_mut_ptr(),
            out.len(),
        )
    }
}

/// A [`filter_seek`](crate::raw::filter_seek) of each target in turn, in any order, with the same variable bounds, up to the first none. The values stand
/// in the first places of `out`, and places beyond stay. Or refused 100, 1, 2, 3, 6, 8, 7, 9, 10.
///
/// ```
/// use loftsplice::raw;
///
/// let (starts, ends, steps) = ([10, 30], [4, 5], [5, 0]);
/// let scan = raw::scan_new(&starts, &ends, &steps).scan;
/// let filter = raw::filter_new(scan, raw::INCLUSIVE_WINS, &[10], &[2], &[25], &[1]).filter;
/// let mut out = [0; 3];
/// let ran = raw::filter_seek_run(filter, &starts, &ends, &steps, &[1, 16, 26], raw::Variables::default(), &mut out);
/// assert_eq!((ran.filter.state, ran.count, out), (raw::AFTER, 2, [15, 20, 0]));
/// ```
#[must_use]
pub fn filter_seek_run(
    filter: Filter,
    starts: &[i64],
    ends: &[u64],
    steps: &[i16],
    targets: &[i64],
    variables: Variables<'_>,
    out: &mut [i64],
) -> FilterRan {
    // SAFETY: each pointer and length are those of a slice that is borrowed for the whole call, the one that is written of a slice borrowed for
    // writing, so that it overlaps with no other; and every number is allowed.
    unsafe {
        loftsplice_filter_seek_run(
            filter,
            starts.as_ptr(),
            starts.len(),
            ends.as_ptr(),
            ends.len(),
            steps.as_ptr(),
            steps.len(),
            targets.as_ptr(),
            targets.len(),
            variables.lower_inputs.as_ptr(),
            variables.lower_inputs.len(),
            variables.lower_kinds.as_ptr(),
            variables.lower_kinds.len(),
            variables.upper_inputs.as_ptr(),
            variables.upper_inputs.len(),
            variables.upper_kinds.as_ptr(),
            variables.upper_kinds.len(),
            variables.input_values.as_ptr(),
            variables.input_values.len(),
            variables.input_found.as_ptr(),
            variables.input_found.len(),
            out.as_mut_ptr(),
            out.len(),
        )
    }
}
