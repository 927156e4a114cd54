use core::iter::FusedIterator;
use core::ops::{Range, RangeBounds};

use crate::{raw, window, Column, Refusal};

mod ahead;
mod running;

use ahead::Ahead;

/// The state of a scan.
///
/// ```
/// use loftsplice::{Column, ScanState};
///
/// let mut scan = Column::new(&[7], &[3], &[2])?.scan();
/// assert_eq!(scan.state(), ScanState::Fresh);
/// scan.next();
/// assert_eq!(scan.state(), ScanState::At(0));
/// # Ok::<(), loftsplice::Refusal>(())
/// ```
#[derive(Clone, Copy, Debug, Default, PartialEq, Eq, Hash)]
pub enum ScanState {
    /// Before the window's first element.
    #[default]
    Fresh,
    /// At an index.
    At(u64),
    /// Past the window.
    Ended,
}

/// A scan over a window of a column. As an iterator it gives the elements from its place on, and knows how many are left. It fetches many of them in one
/// call, into a buffer of its own, and stands at the one that it gave last: what is asked of it between two elements goes on from there.
///
/// ```
/// use loftsplice::Column;
///
/// let mut scan = Column::new(&[10, 30], &[4, 5], &[5, 0])?.scan(); // 10 15 20 25, 30
/// assert_eq!(scan.next(), Some(10));
/// assert_eq!(scan.seek(16)?, Some(20));
/// assert_eq!(scan.pos(), Some(2));
/// assert_eq!(scan.by_ref().collect::<Vec<_>>(), [25, 30]);
/// scan.narrow(1..3)?;
/// assert_eq!(scan.collect::<Vec<_>>(), [15, 20]);
/// # Ok::<(), loftsplice::Refusal>(())
/// ```
#[derive(Clone, Debug, PartialEq, Eq, Hash)]
pub struct Scan<'a> {
    column: Column<'a>,
    /// Where the reader stands.
    stands: raw::Scan,
    /// Elements behind it.
    ahead: Ahead,
}

impl<'a> Scan<'a> {
    /// A scan that the library gave, of the same column: so it carries the element that it is at, and no call on it is refused 1, 2, 3, 6 or 100.
    pub(crate) fn over(column: Column<'a>, scan: raw::Scan) -> Scan<'a> {
        Scan {
            column,
            stands: scan,
            ahead: Ahead::default(),
        }
    }

    /// The scan with its buffer, out of a place where one without it stays.
    #[inline]
    pub(crate) fn leave(&mut self) -> Scan<'a> {
        Scan {
            ahead: core::mem::take(&mut self.ahead),
            ..*self
        }
    }

    /// To where a call of the library left it.
    pub(crate) fn goes_to(&mut self, scan: raw::Scan) {
        self.stands = scan;
        self.ahead.forget();
    }

    /// To the next element that was fetched: from one element to the next, at an index before and after.
    #[inline]
    pub(crate) fn step(&mut self) -> Option<i64> {
        let value = self.ahead.take()?;
        self.stands.index += 1;
        self.stands.value = value;
        Some(value)
    }

    /// How many elements that were fetched are left to `step` to.
    pub(crate) fn fetched_ahead(&self) -> usize {
        self.ahead.unread()
    }

    fn moved(&mut self, moved: raw::Moved) -> Result<Option<i64>, Refusal> {
        self.goes_to(moved.scan);
        Refusal::or(
            moved.answer.refusal,
            (moved.answer.found == 1).then_some(moved.answer.value),
        )
    }

    /// The column.
    ///
    /// ```
    /// let column = loftsplice::Column::new(&[7], &[3], &[2])?;
    /// assert_eq!(column.scan().column(), column);
    /// # Ok::<(), loftsplice::Refusal>(())
    /// ```
    #[must_use]
    pub const fn column(&self) -> Column<'a> {
        self.column
    }

    /// The scan's numbers.
    ///
    /// ```
    /// let scan = loftsplice::Column::new(&[7], &[3], &[2])?.scan();
    /// assert_eq!(scan.raw().end, 3);
    /// # Ok::<(), loftsplice::Refusal>(())
    /// ```
    #[must_use]
    pub const fn raw(&self) -> raw::Scan {
        self.stands
    }

    /// The window: from its first index up to but not including its end.
    ///
    /// ```
    /// assert_eq!(loftsplice::Column::new(&[7], &[3], &[2])?.scan().window(), 0..3);
    /// # Ok::<(), loftsplice::Refusal>(())
    /// ```
    #[must_use]
    pub const fn window(&self) -> Range<u64> {
        self.stands.start..self.stands.end
    }

    /// The state. It makes no call.
    ///
    /// ```
    /// let mut scan = loftsplice::Column::new(&[7], &[3], &[2])?.scan();
    /// scan.seek(100)?;
    /// assert_eq!(scan.state(), loftsplice::ScanState::Ended);
    /// # Ok::<(), loftsplice::Refusal>(())
    /// ```
    #[must_use]
    pub const fn state(&self) -> ScanState {
        match self.stands.state {
            raw::FRESH => ScanState::Fresh,
            raw::AT => ScanState::At(self.stands.index),
            _ => ScanState::Ended,
        }
    }

    /// To the first element from here on that is not below the target, or none.
    ///
    /// ```
    /// use loftsplice::{Column, Refusal};
    ///
    /// let mut scan = Column::new(&[10, 6], &[2, 5], &[-5, 1])?.scan(); // 10 5, 6 7 8
    /// assert_eq!(scan.seek(6).unwrap_err(), Refusal::Order);
    /// scan.narrow(1..5)?;
    /// assert_eq!(scan.seek(6)?, Some(6));
    /// assert_eq!(scan.seek(9)?, None);
    /// # Ok::<(), Refusal>(())
    /// ```
    ///
    /// Targets of which none is below the one before leave the scan where the last alone would, and each is answered as if alone.
    ///
    /// ```
    /// use loftsplice::{Column, Refusal};
    ///
    /// let (mut one, mut two) = (Column::new(&[10], &[4], &[5])?.scan(), Column::new(&[10], &[4], &[5])?.scan()); // 10 15 20 25
    /// one.seek(11)?;
    /// assert_eq!((one.seek(16)?, one.state()), (two.seek(16)?, two.state()));
    /// # Ok::<(), Refusal>(())
    /// ```
    ///
    /// # Errors
    ///
    /// [`Refusal::Order`] if the window doesn't rise.
    pub fn seek(&mut self, target: i64) -> Result<Option<i64>, Refusal> {
        let column = self.column;
        self.moved(raw::scan_seek(
            self.stands,
            column.starts(),
            column.ends(),
            column.steps(),
            target,
        ))
    }

    /// To another window of the column, any range of indices, before its first element. A window counts from the column's beginning and may be wider
    /// than the one before; a start at or above its end makes it empty, and an open end is the column's.
    ///
    /// ```
    /// use loftsplice::{Column, Refusal};
    ///
    /// let mut scan = Column::new(&[7], &[3], &[2])?.scan();
    /// scan.narrow(2..3)?;
    /// assert_eq!(scan.next(), Some(11));
    /// assert_eq!(scan.narrow(0..4).unwrap_err(), Refusal::Window);
    /// scan.narrow(..=1)?;
    /// assert_eq!(scan.by_ref().collect::<Vec<_>>(), [7, 9]);
    /// scan.narrow(..)?;
    /// assert_eq!(scan.window(), 0..3);
    /// # Ok::<(), Refusal>(())
    /// ```
    ///
    /// # Errors
    ///
    /// [`Refusal::Window`] if its end is above the column's length; the scan is then as it was.
    pub fn narrow(&mut self, window: impl RangeBounds<u64>) -> Result<(), Refusal> {
        let column = self.column;
        let (start, end) = window::of(&window, column.len());
        self.moved(raw::scan_narrow(
            self.stands,
            column.starts(),
            column.ends(),
            column.steps(),
            start,
            end,
        ))
        .map(|_| ())
    }

    /// Before the window's first element.
    ///
    /// ```
    /// let mut scan = loftsplice::Column::new(&[7], &[3], &[2])?.scan();
    /// assert_eq!(scan.next(), Some(7));
    /// scan.reset();
    /// assert_eq!(scan.next(), Some(7));
    /// # Ok::<(), loftsplice::Refusal>(())
    /// ```
    pub fn reset(&mut self) {
        let column = self.column;
        self.goes_to(
            raw::scan_reset(self.stands, column.starts(), column.ends(), column.steps()).scan,
        );
    }

    /// The element that the scan is at, or none. The scan carries it: the column is not looked at.
    ///
    /// ```
    /// let mut scan = loftsplice::Column::new(&[7], &[3], &[2])?.scan();
    /// assert_eq!(scan.current(), None);
    /// scan.next();
    /// assert_eq!(scan.current(), Some(7));
    /// # Ok::<(), loftsplice::Refusal>(())
    /// ```
    #[must_use]
    pub fn current(&self) -> Option<i64> {
        let answer = raw::scan_current(self.stands);
        (answer.found == 1).then_some(answer.value)
    }

    /// The index that the scan is at, or none. It makes no call.
    ///
    /// ```
    /// let mut scan = loftsplice::Column::new(&[7], &[3], &[2])?.scan();
    /// scan.seek(8)?;
    /// assert_eq!(scan.pos(), Some(1));
    /// # Ok::<(), loftsplice::Refusal>(())
    /// ```
    #[must_use]
    pub const fn pos(&self) -> Option<u64> {
        match self.state() {
            ScanState::At(index) => Some(index),
            ScanState::Fresh | ScanState::Ended => None,
        }
    }

    /// The index that `next` goes to, if it lies in the window.
    const fn upcoming(&self) -> u64 {
        match self.state() {
            ScanState::Fresh => self.stands.start,
            ScanState::At(index) => index + 1,
            ScanState::Ended => self.stands.end,
        }
    }

    /// The elements that are left in the window: those behind the index, or all of them when fresh.
    pub(crate) const fn left(&self) -> u64 {
        self.stands.end.saturating_sub(self.upcoming())
    }
}

impl Iterator for Scan<'_> {
    type Item = i64;

    #[inline]
    fn next(&mut self) -> Option<i64> {
        if let Some(value) = self.step() {
            return Some(value);
        }
        // by value, and in no closure, which is compiled apart: where no call takes its address, a loop keeps the scan in registers
        let (answer, scan) = self.leave().fetched();
        *self = scan;
        answer
    }

    fn size_hint(&self) -> (usize, Option<usize>) {
        let left = raw::places(self.left());
        (left, Some(left))
    }
}

impl ExactSizeIterator for Scan<'_> {}

impl FusedIterator for Scan<'_> {}
