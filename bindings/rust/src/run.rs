use core::iter::FusedIterator;
use core::ops::Range;

use crate::Column;

/// One run of a column: its elements are start, start + step, start + 2 · step, and so on.
///
/// ```
/// use loftsplice::{Column, Run};
///
/// let column = Column::new(&[10, 6], &[2, 5], &[-5, 1])?; // 10 5, 6 7 8
/// assert_eq!(column.runs().last(), Some(Run { start: 6, step: 1, elements: 3 }));
/// # Ok::<(), loftsplice::Refusal>(())
/// ```
#[derive(Clone, Copy, Debug, PartialEq, Eq, Hash)]
pub struct Run {
    /// The first element.
    pub start: i64,
    /// From each element to the next.
    pub step: i16,
    /// The number of elements: at least 1.
    pub elements: u64,
}

impl Run {
    /// The last element. Of a run of a column it is an `i64`, so that nothing wraps.
    pub(crate) fn last(&self) -> i64 {
        let apart = u64::from(self.step.unsigned_abs()).wrapping_mul(self.elements - 1);
        if self.step < 0 {
            self.start.wrapping_sub_unsigned(apart)
        } else {
            self.start.wrapping_add_unsigned(apart)
        }
    }
}

/// The runs of a column, from either side. [`Column::runs`] gives it.
///
/// ```
/// let column = loftsplice::Column::new(&[10, 6], &[2, 5], &[-5, 1])?;
/// let mut runs = column.runs();
/// assert_eq!(runs.len(), 2);
/// assert_eq!(runs.next_back().map(|run| run.elements), Some(3));
/// assert_eq!(runs.next().map(|run| run.elements), Some(2));
/// assert_eq!(runs.next(), None);
/// # Ok::<(), loftsplice::Refusal>(())
/// ```
#[derive(Clone, Debug, PartialEq, Eq, Hash)]
pub struct Runs<'a> {
    column: Column<'a>,
    left: Range<usize>,
}

impl<'a> Runs<'a> {
    /// All runs of a column.
    pub(crate) fn of(column: Column<'a>) -> Runs<'a> {
        let left = 0..column.starts().len();
        Runs { column, left }
    }

    /// The run with a number, which the column has. The ends of a column rise.
    fn at(&self, run: usize) -> Run {
        let ends = self.column.ends();
        let before = if run == 0 { 0 } else { ends[run - 1] };
        Run {
            start: self.column.starts()[run],
            step: self.column.steps()[run],
            elements: ends[run] - before,
        }
    }
}

impl Iterator for Runs<'_> {
    type Item = Run;

    fn next(&mut self) -> Option<Run> {
        self.left.next().map(|run| self.at(run))
    }

    fn size_hint(&self) -> (usize, Option<usize>) {
        self.left.size_hint()
    }
}

impl DoubleEndedIterator for Runs<'_> {
    fn next_back(&mut self) -> Option<Run> {
        self.left.next_back().map(|run| self.at(run))
    }
}

impl ExactSizeIterator for Runs<'_> {}

impl FusedIterator for Runs<'_> {}
