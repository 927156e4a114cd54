use alloc::vec::Vec;
use core::ops::Range;

use crate::bound::lists;
use crate::{raw, Bound, Column, Mode, Refusal};

/// Writes the values of each window that meet the constant bounds into `out`, window by window, and each window's number of values into `counts`;
/// answers their sum. The mode is [`Mode::InclusiveWins`]. Places that are not filled stay as they were.
///
/// ```
/// use loftsplice::{list, Bound, Column, Refusal};
///
/// let column = Column::new(&[10, 30, 31, 40], &[4, 5, 6, 9], &[5, 0, -3, 100])?; // 10 15 20 25, 30, 31, 40 140 240
/// let (mut out, mut counts) = ([0; 5], [0; 2]);
/// let sum = list(column, &[1..4, 3..7], &[Bound::Exclusive(15)], &[Bound::Inclusive(31)], &mut out, &mut counts)?;
/// assert_eq!((sum, out, counts), (5, [20, 25, 25, 30, 31], [2, 3]));
/// assert_eq!(list(column, &[0..9], &[], &[], &mut out, &mut counts), Err(Refusal::Room));
/// # Ok::<(), Refusal>(())
/// ```
///
/// The parts of a window that rises, listed in one call or in several, in any order and from any threads, joined in their order are the list of the whole
/// (the example `parts` has a thread a part).
///
/// ```
/// use loftsplice::{list, Column, Refusal};
///
/// let column = Column::new(&[10, 30], &[4, 5], &[5, 0])?; // 10 15 20 25, 30
/// let (mut whole, mut parts, mut counts) = ([0; 4], [0; 4], [0; 2]);
/// list(column, &[1..5], &[], &[], &mut whole, &mut counts)?;
/// for middle in 1..=5 {
///     assert_eq!(list(column, &[1..middle, middle..5], &[], &[], &mut parts, &mut counts)?, 4);
///     assert_eq!((parts, counts[0] + counts[1]), (whole, 4));
/// }
/// # Ok::<(), Refusal>(())
/// ```
///
/// # Errors
///
/// [`Refusal::Bounds`], [`Refusal::Window`], [`Refusal::Order`], [`Refusal::Room`], and then nothing is written.
pub fn list(
    column: Column<'_>,
    windows: &[Range<u64>],
    lower: &[Bound],
    upper: &[Bound],
    out: &mut [i64],
    counts: &mut [u64],
) -> Result<u64, Refusal> {
    list_in_mode(Mode::default(), column, windows, lower, upper, out, counts)
}

/// The same in a mode, one for all windows.
///
/// ```
/// use loftsplice::{list_in_mode, Bound, Column, Mode, Refusal};
///
/// let column = Column::new(&[10], &[4], &[5])?; // 10 15 20 25
/// let both = [Bound::Inclusive(15), Bound::Exclusive(15)];
/// let (mut out, mut counts) = ([0; 2], [0; 1]);
/// let windows = std::slice::from_ref(&(0..4));
/// assert_eq!(list_in_mode(Mode::ExclusiveWins, column, windows, &[], &both, &mut out, &mut counts)?, 1);
/// assert_eq!((out, counts), ([10, 0], [1]));
/// # Ok::<(), Refusal>(())
/// ```
///
/// # Errors
///
/// As [`list`].
pub fn list_in_mode(
    mode: Mode,
    column: Column<'_>,
    windows: &[Range<u64>],
    lower: &[Bound],
    upper: &[Bound],
    out: &mut [i64],
    counts: &mut [u64],
) -> Result<u64, Refusal> {
    let (from, to): (Vec<u64>, Vec<u64>) = windows
        .iter()
        .map(|window| (window.start, window.end))
        .unzip();
    let (lows, low_kinds) = lists(lower, |value| value);
    let (ups, up_kinds) = lists(upper, |value| value);
    let listed = raw::list(
        column.starts(),
        column.ends(),
        column.steps(),
        &from,
        &to,
        mode.number(),
        &lows,
        &low_kinds,
        &ups,
        &up_kinds,
        out,
        counts,
    );
    Refusal::or(listed.refusal, listed.sum)
}
