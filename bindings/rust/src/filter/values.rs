use core::iter::FusedIterator;

use crate::{Filter, FilterState, Refusal};

/// The elements that a filter gives by `next` alone; a refusal is the last item. It fetches many of them in one call.
///
/// ```
/// use loftsplice::{Column, Filter, Refusal};
///
/// let falling = Column::new(&[10, 6], &[2, 5], &[-5, 1])?;
/// let mut values = Filter::new(falling.scan(), &[], &[])?.values();
/// assert_eq!(values.next(), Some(Err(Refusal::Order)));
/// assert_eq!(values.next(), None);
/// # Ok::<(), Refusal>(())
/// ```
#[derive(Clone, Debug, PartialEq, Eq, Hash)]
pub struct Values<'a> {
    filter: Filter<'a>,
    done: bool,
}

impl<'a> Values<'a> {
    /// Those that are left to a filter.
    pub(crate) const fn of(filter: Filter<'a>) -> Values<'a> {
        Values {
            filter,
            done: false,
        }
    }

    /// The filter, which stands at the last element that was read.
    ///
    /// ```
    /// use loftsplice::{Column, Filter};
    ///
    /// let column = Column::new(&[10, 30], &[4, 5], &[5, 0])?; // 10 15 20 25, 30
    /// let mut values = Filter::new(column.scan(), &[], &[])?.values();
    /// assert_eq!(values.by_ref().take(2).collect::<Result<Vec<_>, _>>()?, [10, 15]);
    /// assert_eq!(values.into_filter().seek(21)?, Some(25));
    /// # Ok::<(), loftsplice::Refusal>(())
    /// ```
    #[must_use]
    pub fn into_filter(self) -> Filter<'a> {
        self.filter
    }
}

impl Iterator for Values<'_> {
    type Item = Result<i64, Refusal>;

    #[inline]
    fn next(&mut self) -> Option<Result<i64, Refusal>> {
        if self.done {
            return None;
        }
        let answer = self.filter.next().transpose();
        self.done = !matches!(answer, Some(Ok(_)));
        answer
    }

    /// At least those that are fetched already; at most those that the scan has left.
    fn size_hint(&self) -> (usize, Option<usize>) {
        let left = crate::raw::places(self.filter.scan().left());
        match self.filter.state() {
            FilterState::After => (0, Some(0)),
            _ if self.done => (0, Some(0)),
            FilterState::Within(_) => (self.filter.scan().fetched_ahead(), Some(left)),
            // it may begin with the element that the scan is at, or be refused
            FilterState::Before => (0, left.checked_add(1)),
        }
    }
}

impl FusedIterator for Values<'_> {}

/// The elements that are left: [`Filter::values`].
///
/// ```
/// let column = loftsplice::Column::new(&[10, 30], &[4, 5], &[5, 0])?; // 10 15 20 25, 30
/// let mut sum = 0;
/// for value in loftsplice::Filter::new(column.scan(), &[], &[])? {
///     sum += value?;
/// }
/// assert_eq!(sum, 100);
/// # Ok::<(), loftsplice::Refusal>(())
/// ```
impl<'a> IntoIterator for Filter<'a> {
    type Item = Result<i64, Refusal>;
    type IntoIter = Values<'a>;

    fn into_iter(self) -> Values<'a> {
        self.values()
    }
}
