//! The calls on a scan.
use crate::raw::{Answer, Moved, NewScan, Position, Scan};
#[cfg(target_arch = "x86_64")]
use core::arch::x86_64::{__m128i, _mm_set_epi64x};

extern "C" {
    fn loftsplice_scan_new(
        starts: *const i64,
        starts_len: usize,
        ends: *const u64,
        ends_len: usize,
        steps: *const i16,
        steps_len: usize,
    ) -> NewScan;
    fn loftsplice_scan_next(
        scan: Scan,
        starts: *const i64,
        starts_len: usize,
        ends: *const u64,
        ends_len: usize,
        steps: *const i16,
        steps_len: usize,
    ) -> Moved;
    fn loftsplice_scan_seek(
        scan: Scan,
        starts: *const i64,
        starts_len: usize,
        ends: *const u64,
        ends_len: usize,
        steps: *const i16,
        steps_len: usize,
        target: i64,
    ) -> Moved;
    fn loftsplice_scan_narrow(
        scan: Scan,
        starts: *const i64,
        starts_len: usize,
        ends: *const u64,
        ends_len: usize,
        steps: *const i16,
        steps_len: usize,
        start: u64,
        end: u64,
    ) -> Moved;
    fn loftsplice_scan_reset(
        scan: Scan,
        starts: *const i64,
        starts_len: usize,
        ends: *const u64,
        ends_len: usize,
        steps: *const i16,
        steps_len: usize,
    ) -> Moved;
    fn loftsplice_scan_current(scan: Scan) -> Answer;
    fn loftsplice_scan_pos(
        scan: Scan,
        starts: *const i64,
        starts_len: usize,
        ends: *const u64,
        ends_len: usize,
        steps: *const i16,
        steps_len: usize,
    ) -> Position;
}

/// A scan as it is copied on: 16 bytes at a time.
#[cfg(target_arch = "x86_64")]
#[repr(C, packed(8))]
struct Pairs(__m128i, __m128i, u64);

/// The same numbers, put together as they are copied on. The archive writes them one by one and a copy reads them by pairs: a processor waits with such a
/// read until the writes are done, and a call waits for its scan. So each is read as it was written, and the pairs are made here.
#[cfg(target_arch = "x86_64")]
#[inline]
fn paired(moved: &Moved) -> Moved {
    let Moved { scan, answer } = moved;
    // SAFETY: each pointer is that of a field that is borrowed, and a read of a number has no other condition. SSE2, which makes a pair, is part of
    // x86-64. Pairs and Scan have the same 40 bytes: start, end; index, value; state, then found, the low half first; and each bit pattern is a Scan.
    unsafe {
        let [start, end, index] = [&scan.start, &scan.end, &scan.index]
            .map(|number| core::ptr::from_ref(number).cast::<i64>().read_volatile());
        let [state, found] = [&scan.state, &scan.found]
            .map(|number| u64::from(core::ptr::from_ref(number).read_volatile()));
        let value = core::ptr::from_ref(&scan.value).read_volatile();
        let pairs = Pairs(
            _mm_set_epi64x(end, start),
            _mm_set_epi64x(value, index),
            state | found << 32,
        );
        Moved {
            scan: core::mem::transmute::<Pairs, Scan>(pairs),
            answer: Answer {
                refusal: core::ptr::from_ref(&answer.refusal).read_volatile(),
                found: core::ptr::from_ref(&answer.found).read_volatile(),
                value: core::ptr::from_ref(&answer.value).read_volatile(),
            },
        }
    }
}

#[cfg(not(target_arch = "x86_64"))]
fn paired(moved: &Moved) -> Moved {
    *moved
}

/// A fresh scan over the whole column; or refused 1, 2, 3.
///
/// ```
/// use loftsplice::raw;
///
/// let made = raw::scan_new(&[10, 30], &[4, 5], &[5, 0]);
/// assert_eq!(made.scan, raw::Scan { start: 0, end: 5, index: 0, value: 0, state: raw::FRESH, found: 0 });
/// ```
#[must_use]
pub fn scan_new(starts: &[i64], ends: &[u64], steps: &[i16]) -> NewScan {
    // SAFETY: each pointer and length are those of a slice that is borrowed for the whole call, and every number is allowed.
    unsafe {
        loftsplice_scan_new(
            starts.as_ptr(),
            starts.len(),
            ends.as_ptr(),
            ends.len(),
            steps.as_ptr(),
            steps.len(),
        )
    }
}

/// To the next element, or none at the window's end; or refused 100, 1, 2, 3, 6.
///
/// ```
/// use loftsplice::raw;
///
/// let scan = raw::scan_new(&[10, 30], &[4, 5], &[5, 0]).scan;
/// let moved = raw::scan_next(scan, &[10, 30], &[4, 5], &[5, 0]);
/// assert_eq!((moved.answer.value, moved.scan.index, moved.scan.state), (10, 0, raw::AT));
/// assert_eq!((moved.scan.found, moved.scan.value), (1, 10));
/// ```
#[must_use]
#[inline]
pub fn scan_next(scan: Scan, starts: &[i64], ends: &[u64], steps: &[i16]) -> Moved {
    // SAFETY: each pointer and length are those of a slice that is borrowed for the whole call, and every number is allowed.
    let moved = unsafe {
        loftsplice_scan_next(
            scan,
            starts.as_ptr(),
            starts.len(),
            ends.as_ptr(),
            ends.len(),
            steps.as_ptr(),
            steps.len(),
        )
    };
    paired(&moved)
}

/// To the first element from here on that is not below the target, or none; or refused 100, 1, 2, 3, 6, 7.
///
/// ```
/// use loftsplice::raw;
///
/// let scan = raw::scan_new(&[10, 30], &[4, 5], &[5, 0]).scan;
/// let moved = raw::scan_seek(scan, &[10, 30], &[4, 5], &[5, 0], 16);
/// assert_eq!((moved.answer.value, moved.scan.index), (20, 2));
/// ```
#[must_use]
#[inline]
pub fn scan_seek(scan: Scan, starts: &[i64], ends: &[u64], steps: &[i16], target: i64) -> Moved {
    // SAFETY: each pointer and length are those of a slice that is borrowed for the whole call, and every number is allowed.
    let moved = unsafe {
        loftsplice_scan_seek(
            scan,
            starts.as_ptr(),
            starts.len(),
            ends.as_ptr(),
            ends.len(),
            steps.as_ptr(),
            steps.len(),
            target,
        )
    };
    paired(&moved)
}

/// To another window of the column, fresh, answering none; or refused 100, 1, 2, 3, 6, 5.
///
/// ```
/// use loftsplice::raw;
///
/// let scan = raw::scan_new(&[10, 30], &[4, 5], &[5, 0]).scan;
/// assert_eq!(raw::scan_narrow(scan, &[10, 30], &[4, 5], &[5, 0], 1, 3).scan.start, 1);
/// assert_eq!(raw::scan_narrow(scan, &[10, 30], &[4, 5], &[5, 0], 1, 6).answer.refusal, 5);
/// ```
#[must_use]
pub fn scan_narrow(
    scan: Scan,
    starts: &[i64],
    ends: &[u64],
    steps: &[i16],
    start: u64,
    end: u64,
) -> Moved {
    // SAFETY: each pointer and length are those of a slice that is borrowed for the whole call, and every number is allowed.
    unsafe {
        loftsplice_scan_narrow(
            scan,
            starts.as_ptr(),
            starts.len(),
            ends.as_ptr(),
            ends.len(),
            steps.as_ptr(),
            steps.len(),
            start,
            end,
        )
    }
}

/// Fresh in the same window, answering none; or refused 100, 1, 2, 3, 6.
///
/// ```
/// use loftsplice::raw;
///
/// let scan = raw::Scan { start: 1, end: 3, index: 2, value: 20, state: raw::AT, found: 1 };
/// assert_eq!(raw::scan_reset(scan, &[10, 30], &[4, 5], &[5, 0]).scan.state, raw::FRESH);
/// ```
#[must_use]
pub fn scan_reset(scan: Scan, starts: &[i64], ends: &[u64], steps: &[i16]) -> Moved {
    // SAFETY: each pointer and length are those of a slice that is borrowed for the whole call, and every number is allowed.
    unsafe {
        loftsplice_scan_reset(
            scan,
            starts.as_ptr(),
            starts.len(),
            ends.as_ptr(),
            ends.len(),
            steps.as_ptr(),
            steps.len(),
        )
    }
}

/// What the scan carries: the element that it is at, or none; or refused 100, 6. It looks at no column, so 6 is given only where a value is there when
/// fresh or ended, or is missing at an index.
///
/// ```
/// use loftsplice::raw;
///
/// let scan = raw::Scan { start: 1, end: 3, index: 2, value: 20, state: raw::AT, found: 1 };
/// assert_eq!(raw::scan_current(scan).value, 20);
/// assert_eq!(raw::scan_current(raw::Scan { found: 0, ..scan }).refusal, 6);
/// ```
#[must_use]
pub fn scan_current(scan: Scan) -> Answer {
    // SAFETY: only numbers are handed over, and every number is allowed.
    unsafe { loftsplice_scan_current(scan) }
}

/// The index that the scan is at, or none; or refused 100, 1, 2, 3, 6.
///
/// ```
/// use loftsplice::raw;
///
/// let scan = raw::Scan { start: 1, end: 3, index: 2, value: 20, state: raw::AT, found: 1 };
/// assert_eq!(raw::scan_pos(scan, &[10, 30], &[4, 5], &[5, 0]).index, 2);
/// assert_eq!(raw::scan_pos(raw::Scan { index: 3, ..scan }, &[10, 30], &[4, 5], &[5, 0]).refusal, 6);
/// ```
#[must_use]
pub fn scan_pos(scan: Scan, starts: &[i64], ends: &[u64], steps: &[i16]) -> Position {
    // SAFETY: each pointer and length are those of a slice that is borrowed for the whole call, and every number is allowed.
    unsafe {
        loftsplice_scan_pos(
            scan,
            starts.as_ptr(),
            starts.len(),
            ends.as_ptr(),
            ends.len(),
            steps.as_ptr(),
            steps.len(),
        )
    }
}
