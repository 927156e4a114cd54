//! The calls on a filter.
use crate::raw::{Answer, Filter, NewFilter, Reset, Scan, Sifted, Variables};

extern "C" {
    fn loftsplice_filter_new(
        scan: Scan,
        mode: u32,
        lower_values: *const i64,
        lower_values_len: usize,
        lower_kinds: *const u8,
        lower_kinds_len: usize,
        upper_values: *const i64,
        upper_values_len: usize,
        upper_kinds: *const u8,
        upper_kinds_len: usize,
    ) -> NewFilter;
    fn loftsplice_filter_next(
        filter: Filter,
        starts: *const i64,
        starts_len: usize,
        ends: *const u64,
        ends_len: usize,
        steps: *const i16,
        steps_len: usize,
        lower_inputs: *const u64,
        lower_inputs_len: usize,
        lower_kinds: *const u8,
        lower_kinds_len: usize,
        upper_inputs: *const u64,
        upper_inputs_len: usize,
        upper_kinds: *const u8,
        upper_kinds_len: usize,
        input_values: *const i64,
        input_values_len: usize,
        input_found: *const u8,
        input_found_len: usize,
    ) -> Sifted;
    fn loftsplice_filter_seek(
        filter: Filter,
        starts: *const i64,
        starts_len: usize,
        ends: *const u64,
        ends_len: usize,
        steps: *const i16,
        steps_len: usize,
        target: i64,
        lower_inputs: *const u64,
        lower_inputs_len: usize,
        lower_kinds: *const u8,
        lower_kinds_len: usize,
        upper_inputs: *const u64,
        upper_inputs_len: usize,
        upper_kinds: *const u8,
        upper_kinds_len: usize,
        input_values: *const i64,
        input_values_len: usize,
        input_found: *const u8,
        input_found_len: usize,
    ) -> Sifted;
    fn loftsplice_filter_current(filter: Filter) -> Answer;
    fn loftsplice_filter_reset(filter: Filter) -> Reset;
}

/// A filter over a scan, in a mode, its constant bounds (a value and a kind each) folded; or refused 100, 8.
///
/// ```
/// use loftsplice::raw;
///
/// let scan = raw::scan_new(&[10, 30], &[4, 5], &[5, 0]).scan;
/// let made = raw::filter_new(scan, raw::INCLUSIVE_WINS, &[10, 15], &[1, 2], &[], &[]);
/// assert_eq!(made.filter.lower, raw::Limit { value: 15, kind: raw::EXCLUSIVE });
/// let strict = raw::filter_new(scan, raw::EXCLUSIVE_WINS, &[], &[], &[15, 15], &[1, 2]);
/// assert_eq!(strict.filter.upper, raw::Limit { value: 15, kind: raw::EXCLUSIVE });
/// assert_eq!(raw::filter_new(scan, 3, &[], &[], &[], &[]).refusal, raw::FORM);
/// ```
#[must_use]
pub fn filter_new(
    scan: Scan,
    mode: u32,
    lower_values: &[i64],
    lower_kinds: &[u8],
    upper_values: &[i64],
    upper_kinds: &[u8],
) -> NewFilter {
    // SAFETY: each pointer and length are those of a slice that is borrowed for the whole call, and every number is allowed.
    unsafe {
        loftsplice_filter_new(
            scan,
            mode,
            lower_values.as_ptr(),
            lower_values.len(),
            lower_kinds.as_ptr(),
            lower_kinds.len(),
            upper_values.as_ptr(),
            upper_values.len(),
            upper_kinds.as_ptr(),
            upper_kinds.len(),
        )
    }
}

/// To the next element that meets the bounds, or none; or refused 100, 1, 2, 3, 6, 8, 7, 9.
///
/// ```
/// use loftsplice::raw;
///
/// let scan = raw::scan_new(&[10, 30], &[4, 5], &[5, 0]).scan;
/// let filter = raw::filter_new(scan, raw::INCLUSIVE_WINS, &[15], &[2], &[], &[]).filter;
/// let sifted = raw::filter_next(filter, &[10, 30], &[4, 5], &[5, 0], raw::Variables::default());
/// assert_eq!((sifted.answer.value, sifted.filter.state), (20, raw::WITHIN));
/// ```
#[must_use]
#[inline]
pub fn filter_next(
    filter: Filter,
    starts: &[i64],
    ends: &[u64],
    steps: &[i16],
    variables: Variables<'_>,
) -> Sifted {
    // SAFETY: each pointer and length are those of a slice that is borrowed for the whole call, and every number is allowed.
    unsafe {
        loftsplice_filter_next(
            filter,
            starts.as_ptr(),
            starts.len(),
            ends.as_ptr(),
            ends.len(),
            steps.as_ptr(),
            steps.len(),
            variables.lower_inputs.as_ptr(),
            variables.lower_inputs.len(),
            variables.lower_kinds.as_ptr(),
            variables.lower_kinds.len(),
            variables.upper_inputs.as_ptr(),
            variables.upper_inputs.len(),
            variables.upper_kinds.as_ptr(),
            variables.upper_kinds.len(),
            variables.input_values.as_ptr(),
            variables.input_values.len(),
            variables.input_found.as_ptr(),
            variables.input_found.len(),
        )
    }
}

/// To the first element from here on that meets the bounds and is not below the target, or none; or refused 100, 1, 2, 3, 6, 8, 7, 9.
///
/// ```
/// use loftsplice::raw;
///
/// let scan = raw::scan_new(&[10, 30], &[4, 5], &[5, 0]).scan;
/// let filter = raw::filter_new(scan, raw::INCLUSIVE_WINS, &[10], &[2], &[], &[]).filter;
/// let sifted = raw::filter_seek(filter, &[10, 30], &[4, 5], &[5, 0], 21, raw::Variables::default());
/// assert_eq!(sifted.answer.value, 25);
/// ```
#[must_use]
#[inline]
pub fn filter_seek(
    filter: Filter,
    starts: &[i64],
    ends: &[u64],
    steps: &[i16],
    target: i64,
    variables: Variables<'_>,
) -> Sifted {
    // SAFETY: each pointer and length are those of a slice that is borrowed for the whole call, and every number is allowed.
    unsafe {
        loftsplice_filter_seek(
            filter,
            starts.as_ptr(),
            starts.len(),
            ends.as_ptr(),
            ends.len(),
            steps.as_ptr(),
            steps.len(),
            target,
            variables.lower_inputs.as_ptr(),
            variables.lower_inputs.len(),
            variables.lower_kinds.as_ptr(),
            variables.lower_kinds.len(),
            variables.upper_inputs.as_ptr(),
            variables.upper_inputs.len(),
            variables.upper_kinds.as_ptr(),
            variables.upper_kinds.len(),
            variables.input_values.as_ptr(),
            variables.input_values.len(),
            variables.input_found.as_ptr(),
            variables.input_found.len(),
        )
    }
}

/// What its scan carries when within, else none; or refused 100, 6, in any state of the filter: where
/// [`scan_current`](crate::raw::scan_current) of its scan is. It looks at no column.
///
/// ```
/// use loftsplice::raw;
///
/// let scan = raw::scan_new(&[10, 30], &[4, 5], &[5, 0]).scan;
/// let filter = raw::filter_new(scan, raw::INCLUSIVE_WINS, &[], &[], &[], &[]).filter;
/// assert_eq!(raw::filter_current(filter).found, 0);
/// ```
#[must_use]
pub fn filter_current(filter: Filter) -> Answer {
    // SAFETY: only numbers are handed over, and every number is allowed.
    unsafe { loftsplice_filter_current(filter) }
}

/// Before again, in the same mode, the scan as it stands; or refused 100.
///
/// ```
/// use loftsplice::raw;
///
/// let scan = raw::scan_new(&[10, 30], &[4, 5], &[5, 0]).scan;
/// let filter = raw::filter_new(scan, raw::INCLUSIVE_WINS, &[], &[], &[], &[]).filter;
/// assert_eq!(raw::filter_reset(filter).filter, filter);
/// assert_eq!(raw::filter_reset(raw::Filter { state: 9, ..filter }).refusal, raw::FORM);
/// ```
#[must_use]
pub fn filter_reset(filter: Filter) -> Reset {
    // SAFETY: only numbers are handed over, and every number is allowed.
    unsafe { loftsplice_filter_reset(filter) }
}
