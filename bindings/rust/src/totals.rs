use alloc::{vec, vec::Vec};
use core::{
    ops::{Range, RangeBounds},
    slice,
};

use crate::{raw, window, Column, Refusal};

/// Of a window, or of several: the number of elements, the least and the greatest, and the exact sum. The default is that of no element.
///
/// ```
/// use loftsplice::{Column, Refusal, Total};
///
/// let column = Column::new(&[10, 6], &[2, 5], &[-15, 1])?; // 10 -5, 6 7 8
/// assert_eq!(column.total(..3)?, Total { count: 3, edges: Some((-5, 10)), sum: 11 });
/// assert_eq!(column.total(3..3)?, Total::default());
/// # Ok::<(), Refusal>(())
/// ```
#[derive(Clone, Copy, Debug, Default, PartialEq, Eq, Hash)]
pub struct Total {
    /// The number of elements.
    pub count: u64,
    /// The least and the greatest element, where there is one.
    pub edges: Option<(i64, i64)>,
    /// The elements added one after the other.
    pub sum: i128,
}

impl Total {
    /// The least element.
    ///
    /// ```
    /// assert_eq!(loftsplice::Total { count: 2, edges: Some((-5, 10)), sum: 5 }.least(), Some(-5));
    /// ```
    #[must_use]
    pub const fn least(&self) -> Option<i64> {
        match self.edges {
            Some((least, _)) => Some(least),
            None => None,
        }
    }

    /// The greatest element.
    ///
    /// ```
    /// assert_eq!(loftsplice::Total { count: 2, edges: Some((-5, 10)), sum: 5 }.greatest(), Some(10));
    /// ```
    #[must_use]
    pub const fn greatest(&self) -> Option<i64> {
        match self.edges {
            Some((_, greatest)) => Some(greatest),
            None => None,
        }
    }
}

/// The totals of several windows, one each, and those over all.
///
/// ```
/// use loftsplice::{Column, Refusal, Total, Totals};
///
/// let column = Column::new(&[10, 6], &[2, 5], &[-15, 1])?; // 10 -5, 6 7 8
/// let Totals { all, windows } = column.totals(&[0..3, 0..3, 5..5])?;
/// assert_eq!(all, Total { count: 6, edges: Some((-5, 10)), sum: 22 }); // a window that occurs twice is counted twice
/// assert_eq!(windows, [column.total(0..3)?, column.total(0..3)?, Total::default()]);
/// # Ok::<(), Refusal>(())
/// ```
#[derive(Clone, Debug, Default, PartialEq, Eq, Hash)]
pub struct Totals {
    /// Over all windows.
    pub all: Total,
    /// Of each window.
    pub windows: Vec<Total>,
}

/// Exact totals. No window needs to rise, and no sum is rounded: it is what adding the elements one after the other gives.
impl Column<'_> {
    /// Those of one window. A start at or above the end is an empty window.
    ///
    /// ```
    /// use loftsplice::{Column, Refusal};
    ///
    /// let most = Column::new(&[i64::MIN], &[4_294_967_295], &[0])?;
    /// assert_eq!(most.total(..)?.sum, -9_223_372_036_854_775_808 * 4_294_967_295);
    /// assert_eq!(most.total(..=4_294_967_295), Err(Refusal::Window));
    /// # Ok::<(), Refusal>(())
    /// ```
    ///
    /// # Errors
    ///
    /// [`Refusal::Window`] if its end is above the length. A single window's sum is never out of range.
    pub fn total(&self, range: impl RangeBounds<u64>) -> Result<Total, Refusal> {
        let (start, end) = window::of(&range, self.len());
        self.totals_into(slice::from_ref(&(start..end)), &mut [Total::default()])
    }

    /// Those of up to 256 windows ([`raw::MAX_WINDOWS`]), and those over all.
    ///
    /// ```
    /// use loftsplice::{Column, Refusal};
    ///
    /// let column = Column::new(&[i64::MAX, i64::MIN], &[1, 4_294_967_295], &[0, 0])?;
    /// let whole = 0..4_294_967_295;
    /// assert_eq!(column.totals(&[whole.clone(), 0..1])?.all.edges, Some((i64::MIN, i64::MAX)));
    /// assert_eq!(column.totals(&[whole.clone(), whole]), Err(Refusal::Total));
    /// # Ok::<(), Refusal>(())
    /// ```
    ///
    /// # Errors
    ///
    /// [`Refusal::Bounds`] for over 256 windows, [`Refusal::Window`] if an end is above the length, [`Refusal::Total`] if the sum over all windows is below
    /// -2^95 or not below 2^95.
    pub fn totals(&self, windows: &[Range<u64>]) -> Result<Totals, Refusal> {
        // No more places than the most windows need: more windows are the library's to refuse.
        let mut each = vec![Total::default(); windows.len().min(raw::MAX_WINDOWS)];
        let all = self.totals_into(windows, &mut each)?;
        Ok(Totals { all, windows: each })
    }

    /// Writes what [`Column::totals`] gives of each window into the first places of `out`, and gives what it gives over all; places beyond stay.
    ///
    /// ```
    /// use loftsplice::{Column, Refusal, Total};
    ///
    /// let column = Column::new(&[10, 6], &[2, 5], &[-15, 1])?; // 10 -5, 6 7 8
    /// let mut out = [Total::default(); 2];
    /// assert_eq!(column.totals_into(&[0..2, 2..5], &mut out)?.sum, 26);
    /// assert_eq!(out.map(|window| window.sum), [5, 21]);
    /// assert_eq!(column.totals_into(&[0..2, 2..5], &mut out[..1]), Err(Refusal::Room));
    /// # Ok::<(), Refusal>(())
    /// ```
    ///
    /// # Errors
    ///
    /// As [`Column::totals`], and [`Refusal::Room`] if `out` is too short; then nothing is written.
    pub fn totals_into(&self, windows: &[Range<u64>], out: &mut [Total]) -> Result<Total, Refusal> {
        let (from, to): (Vec<u64>, Vec<u64>) = windows
            .iter()
            .map(|window| (window.start, window.end))
            .unzip();
        let places = windows.len().min(out.len()).min(raw::MAX_WINDOWS);
        let (mut counts, mut lows) = (vec![0; places], vec![0; places]);
        let (mut leasts, mut greatests, mut highs) =
            (vec![0; places], vec![0; places], vec![0; places]);
        let all = raw::totals(
            self.starts(),
            self.ends(),
            self.steps(),
            &from,
            &to,
            &mut counts,
            &mut leasts,
            &mut greatests,
            &mut highs,
            &mut lows,
        );
        let total = |found: bool, count, least, greatest, high, low| Total {
            count,
            edges: found.then_some((least, greatest)),
            sum: raw::sum(high, low),
        };
        Refusal::or(all.refusal, ())?;
        for (i, place) in out.iter_mut().enumerate().take(places) {
            *place = total(
                counts[i] > 0,
                counts[i],
                leasts[i],
                greatests[i],
                highs[i],
                lows[i],
            );
        }
        Ok(total(
            all.found == 1,
            all.count,
            all.least,
            all.greatest,
            all.high,
            all.low,
        ))
    }
}
