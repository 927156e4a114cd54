use crate::bound::{lists, Lists};
use crate::{raw, Bound, Mode, Refusal, Scan, Variables};

mod held;
mod running;
mod sieve;
mod values;

use sieve::Sieve;

pub use values::Values;

/// The state of a filter.
///
/// ```
/// use loftsplice::{Bound, Column, Filter, FilterState};
///
/// let mut filter = Filter::new(Column::new(&[7], &[3], &[2])?.scan(), &[], &[Bound::Exclusive(9)])?;
/// assert_eq!(filter.state(), FilterState::Before);
/// filter.next()?;
/// assert_eq!(filter.state(), FilterState::Within(Some(Bound::Exclusive(9))));
/// filter.next()?;
/// assert_eq!(filter.state(), FilterState::After);
/// # Ok::<(), loftsplice::Refusal>(())
/// ```
#[derive(Clone, Copy, Debug, Default, PartialEq, Eq, Hash)]
pub enum FilterState {
    /// No call has moved it yet, or it was reset.
    #[default]
    Before,
    /// At an element, with the upper bound that is kept.
    Within(Option<Bound>),
    /// Past the last element that meets the bounds.
    After,
}

/// The elements of a scan that meet bounds. The scan's window has to rise: each call is refused [`Refusal::Order`] if it doesn't.
///
/// `next`, and [`Filter::values`], which goes by it, fetch many elements in one call, into a buffer of the filter's own. It stands at the one that it
/// gave last: what is asked of it between two elements goes on from there.
///
/// ```
/// use loftsplice::{Bound, Column, Filter};
///
/// let column = Column::new(&[10, 30], &[4, 5], &[5, 0])?; // 10 15 20 25, 30
/// let mut filter = Filter::new(column.scan(), &[Bound::Exclusive(10)], &[Bound::Inclusive(25)])?;
/// assert_eq!(filter.next()?, Some(15));
/// assert_eq!(filter.seek(21)?, Some(25));
/// assert_eq!(filter.next()?, None);
/// # Ok::<(), loftsplice::Refusal>(())
/// ```
#[derive(Clone, Debug, PartialEq, Eq, Hash)]
pub struct Filter<'a> {
    /// Where the reader stands. What it has fetched, it has for the filter: elements that meet the bounds.
    scan: Scan<'a>,
    sieve: Sieve,
}

impl<'a> Filter<'a> {
    /// A filter over a scan as it stands, in the mode [`Mode::InclusiveWins`]. The lower bound is the greatest of the list, the upper the least, where of
    /// equal values the inclusive one is the lesser; an empty list gives none.
    ///
    /// ```
    /// use loftsplice::{Bound, Column, Filter, Refusal};
    ///
    /// let scan = Column::new(&[7], &[3], &[2])?.scan();
    /// let filter = Filter::new(scan.clone(), &[], &[Bound::Exclusive(9), Bound::Inclusive(9)])?;
    /// assert_eq!(filter.upper(), Some(Bound::Inclusive(9)));
    /// assert_eq!(Filter::new(scan, &[Bound::Inclusive(9); 17], &[]).unwrap_err(), Refusal::Bounds);
    /// # Ok::<(), Refusal>(())
    /// ```
    ///
    /// # Errors
    ///
    /// [`Refusal::Bounds`] for over 16 bounds in a list ([`raw::MAX_BOUNDS`]).
    pub fn new(scan: Scan<'a>, lower: &[Bound], upper: &[Bound]) -> Result<Filter<'a>, Refusal> {
        Filter::in_mode(Mode::default(), scan, lower, upper)
    }

    /// The same in a mode, which the filter keeps: it decides how upper bounds are folded, constant and variable ones together.
    ///
    /// ```
    /// use loftsplice::{Bound, Column, Filter, Mode, Variables};
    ///
    /// let scan = Column::new(&[7], &[3], &[2])?.scan();
    /// let mut filter = Filter::in_mode(Mode::ExclusiveWins, scan, &[], &[Bound::Exclusive(9)])?;
    /// let at_most_9 = Variables { upper: &[Bound::Inclusive(0)], inputs: &[Some(9)], ..Variables::default() };
    /// assert_eq!(filter.next_with(at_most_9)?, Some(7));
    /// assert_eq!(filter.next()?, None);
    /// # Ok::<(), loftsplice::Refusal>(())
    /// ```
    ///
    /// # Errors
    ///
    /// As [`Filter::new`].
    pub fn in_mode(
        mode: Mode,
        mut scan: Scan<'a>,
        lower: &[Bound],
        upper: &[Bound],
    ) -> Result<Filter<'a>, Refusal> {
        let (lows, low_kinds) = lists(lower, |value| value);
        let (ups, up_kinds) = lists(upper, |value| value);
        let fitted = raw::filter_new(
            scan.raw(),
            mode.number(),
            &lows,
            &low_kinds,
            &ups,
            &up_kinds,
        );
        // it forgets what it has fetched for itself, whether that meets the bounds or not
        scan.goes_to(fitted.filter.scan);
        let sieve = Sieve::of(fitted.filter);
        Refusal::or(fitted.refusal, Filter { scan, sieve })
    }

    /// To where a call of the library left it.
    fn goes_to(&mut self, filter: raw::Filter) {
        self.scan.goes_to(filter.scan);
        self.sieve = Sieve::of(filter);
    }

    /// The next element that meets the bounds, or none.
    ///
    /// ```
    /// let mut filter = loftsplice::Filter::new(loftsplice::Column::new(&[7], &[1], &[0])?.scan(), &[], &[])?;
    /// assert_eq!(filter.next()?, Some(7));
    /// assert_eq!(filter.next()?, None);
    /// # Ok::<(), loftsplice::Refusal>(())
    /// ```
    ///
    /// # Errors
    ///
    /// [`Refusal::Order`] if the scan's window doesn't rise.
    #[allow(
        clippy::should_implement_trait,
        reason = "an iterator's `next` can't be refused; `values` is the iterator"
    )]
    #[inline]
    pub fn next(&mut self) -> Result<Option<i64>, Refusal> {
        if let Some(value) = self.scan.step() {
            return Ok(Some(value));
        }
        // by value, as a scan does
        let (answer, filter) = self.leave().fetched();
        *self = filter;
        answer
    }

    /// The same with variable bounds, which are read only while the filter is before. It makes one call for one element: once the filter is within, `next`
    /// gives the same elements.
    ///
    /// ```
    /// use loftsplice::{Bound, Column, Filter, Refusal, Variables};
    ///
    /// let mut filter = Filter::new(Column::new(&[7], &[3], &[2])?.scan(), &[], &[])?;
    /// let lower = [Bound::Inclusive(1)];
    /// let missing = Variables { lower: &lower, inputs: &[Some(3)], ..Variables::default() };
    /// assert_eq!(filter.next_with(missing).unwrap_err(), Refusal::Input);
    /// let there = Variables { lower: &lower, inputs: &[None, Some(8)], ..Variables::default() };
    /// assert_eq!(filter.next_with(there)?, Some(9));
    /// # Ok::<(), Refusal>(())
    /// ```
    ///
    /// # Errors
    ///
    /// [`Refusal::Bounds`] for over 16 bounds in a list or over 8 inputs ([`raw::MAX_INPUTS`]), [`Refusal::Order`], [`Refusal::Input`].
    pub fn next_with(&mut self, variables: Variables<'_>) -> Result<Option<i64>, Refusal> {
        let (column, filter) = (self.scan.column(), self.raw());
        self.sifted(raw::filter_next(
            filter,
            column.starts(),
            column.ends(),
            column.steps(),
            Lists::of(variables).lent(),
        ))
    }

    /// The first element from here on that is not below the target and meets the bounds, or none. Without a lower bound the first call ignores the
    /// target.
    ///
    /// ```
    /// use loftsplice::{Bound, Column, Filter};
    ///
    /// let column = Column::new(&[10], &[4], &[5])?; // 10 15 20 25
    /// let mut bounded = Filter::new(column.scan(), &[Bound::Inclusive(0)], &[])?;
    /// assert_eq!(bounded.seek(16)?, Some(20));
    /// let mut free = Filter::new(column.scan(), &[], &[])?;
    /// assert_eq!(free.seek(16)?, Some(10));
    /// # Ok::<(), loftsplice::Refusal>(())
    /// ```
    ///
    /// # Errors
    ///
    /// [`Refusal::Order`] if the scan's window doesn't rise.
    pub fn seek(&mut self, target: i64) -> Result<Option<i64>, Refusal> {
        self.seek_with(target, Variables::default())
    }

    /// The same with variable bounds, which are read only while the filter is before.
    ///
    /// ```
    /// use loftsplice::{Bound, Column, Filter, Variables};
    ///
    /// let mut filter = Filter::new(Column::new(&[10], &[4], &[5])?.scan(), &[], &[])?;
    /// let at_most = Variables { upper: &[Bound::Inclusive(0)], lower: &[Bound::Inclusive(1)], inputs: &[Some(20), Some(0)] };
    /// assert_eq!(filter.seek_with(16, at_most)?, Some(20));
    /// assert_eq!(filter.next()?, None);
    /// # Ok::<(), loftsplice::Refusal>(())
    /// ```
    ///
    /// # Errors
    ///
    /// As [`Filter::next_with`].
    pub fn seek_with(
        &mut self,
        target: i64,
        variables: Variables<'_>,
    ) -> Result<Option<i64>, Refusal> {
        let (column, filter) = (self.scan.column(), self.raw());
        self.sifted(raw::filter_seek(
            filter,
            column.starts(),
            column.ends(),
            column.steps(),
            target,
            Lists::of(variables).lent(),
        ))
    }

    fn sifted(&mut self, sifted: raw::Sifted) -> Result<Option<i64>, Refusal> {
        self.goes_to(sifted.filter);
        Refusal::or(
            sifted.answer.refusal,
            (sifted.answer.found == 1).then_some(sifted.answer.value),
        )
    }

    /// Before again, in the same mode. The scan is left where it stands.
    ///
    /// ```
    /// let mut filter = loftsplice::Filter::new(loftsplice::Column::new(&[7], &[3], &[2])?.scan(), &[], &[])?;
    /// filter.next()?;
    /// filter.reset();
    /// assert_eq!(filter.state(), loftsplice::FilterState::Before);
    /// assert_eq!(filter.next()?, Some(9));
    /// # Ok::<(), loftsplice::Refusal>(())
    /// ```
    pub fn reset(&mut self) {
        self.goes_to(raw::filter_reset(self.raw()).filter);
    }

    /// An iterator over the elements that are left: by `next` alone, up to none or a refusal. A loop over the filter itself is one over these.
    ///
    /// ```
    /// use loftsplice::{Bound, Column, Filter};
    ///
    /// let column = Column::new(&[10, 30], &[4, 5], &[5, 0])?;
    /// let filter = Filter::new(column.scan(), &[Bound::Exclusive(10)], &[])?;
    /// assert_eq!(filter.values().collect::<Result<Vec<_>, _>>()?, [15, 20, 25, 30]);
    /// # Ok::<(), loftsplice::Refusal>(())
    /// ```
    #[must_use]
    pub const fn values(self) -> Values<'a> {
        Values::of(self)
    }
}
