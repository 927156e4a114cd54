use crate::bound::limit;
use crate::{raw, Bound, Filter, FilterState, Mode, Scan};

/// What a filter holds.
impl<'a> Filter<'a> {
    /// The element that the filter stands on, or none. Its scan carries it: the column is not looked at.
    ///
    /// ```
    /// let mut filter = loftsplice::Filter::new(loftsplice::Column::new(&[7], &[1], &[0])?.scan(), &[], &[])?;
    /// assert_eq!(filter.current(), None);
    /// filter.next()?;
    /// assert_eq!(filter.current(), Some(7));
    /// # Ok::<(), loftsplice::Refusal>(())
    /// ```
    #[must_use]
    pub fn current(&self) -> Option<i64> {
        let answer = raw::filter_current(self.raw());
        (answer.found == 1).then_some(answer.value)
    }

    /// The scan, as it stands.
    ///
    /// ```
    /// let mut filter = loftsplice::Filter::new(loftsplice::Column::new(&[7], &[3], &[2])?.scan(), &[], &[])?;
    /// filter.next()?;
    /// assert_eq!(filter.scan().pos(), Some(0));
    /// # Ok::<(), loftsplice::Refusal>(())
    /// ```
    #[must_use]
    pub const fn scan(&self) -> &Scan<'a> {
        &self.scan
    }

    /// The filter's numbers.
    ///
    /// ```
    /// let filter = loftsplice::Filter::new(loftsplice::Column::new(&[7], &[3], &[2])?.scan(), &[], &[])?;
    /// assert_eq!(filter.raw().state, loftsplice::raw::BEFORE);
    /// # Ok::<(), loftsplice::Refusal>(())
    /// ```
    #[must_use]
    pub const fn raw(&self) -> raw::Filter {
        self.sieve.over(self.scan.raw())
    }

    /// The lower bound that the constant ones fold to, or none.
    ///
    /// ```
    /// use loftsplice::{Bound, Column, Filter};
    ///
    /// let filter = Filter::new(Column::new(&[], &[], &[])?.scan(), &[Bound::Inclusive(3), Bound::Exclusive(3)], &[])?;
    /// assert_eq!(filter.lower(), Some(Bound::Exclusive(3)));
    /// # Ok::<(), loftsplice::Refusal>(())
    /// ```
    #[must_use]
    pub const fn lower(&self) -> Option<Bound> {
        limit(self.sieve.lower)
    }

    /// The upper bound that the constant ones fold to, or none.
    ///
    /// ```
    /// let filter = loftsplice::Filter::new(loftsplice::Column::new(&[], &[], &[])?.scan(), &[], &[])?;
    /// assert_eq!(filter.upper(), None);
    /// # Ok::<(), loftsplice::Refusal>(())
    /// ```
    #[must_use]
    pub const fn upper(&self) -> Option<Bound> {
        limit(self.sieve.upper)
    }

    /// The mode that the filter was made in.
    ///
    /// ```
    /// let filter = loftsplice::Filter::new(loftsplice::Column::new(&[], &[], &[])?.scan(), &[], &[])?;
    /// assert_eq!(filter.mode(), loftsplice::Mode::InclusiveWins);
    /// # Ok::<(), loftsplice::Refusal>(())
    /// ```
    #[must_use]
    pub const fn mode(&self) -> Mode {
        match self.sieve.mode {
            raw::EXCLUSIVE_WINS => Mode::ExclusiveWins,
            _ => Mode::InclusiveWins,
        }
    }

    /// The state.
    ///
    /// ```
    /// let filter = loftsplice::Filter::new(loftsplice::Column::new(&[], &[], &[])?.scan(), &[], &[])?;
    /// assert_eq!(filter.state(), loftsplice::FilterState::Before);
    /// # Ok::<(), loftsplice::Refusal>(())
    /// ```
    #[must_use]
    pub const fn state(&self) -> FilterState {
        match self.sieve.state {
            raw::BEFORE => FilterState::Before,
            raw::WITHIN => FilterState::Within(limit(self.sieve.kept)),
            _ => FilterState::After,
        }
    }
}
