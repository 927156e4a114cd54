use crate::bound::Lists;
use crate::seek_each::Seeker;
use crate::{raw, Column, Filter, Refusal, SeekEach, Variables};

/// Runs of calls in one call.
impl<'a> Filter<'a> {
    /// As many elements that meet the bounds as `out` has places, in one call: what so many `next` give. Answers how many there are; places beyond stay as
    /// they were, and with one left over the filter is after.
    ///
    /// ```
    /// use loftsplice::{Bound, Column, Filter, FilterState};
    ///
    /// let column = Column::new(&[10, 30], &[4, 5], &[5, 0])?; // 10 15 20 25, 30
    /// let mut filter = Filter::new(column.scan(), &[Bound::Exclusive(10)], &[Bound::Inclusive(25)])?;
    /// let mut out = [0; 2];
    /// assert_eq!((filter.next_run(&mut out)?, out), (2, [15, 20]));
    /// assert_eq!(filter.current(), Some(20));
    /// assert_eq!((filter.next_run(&mut out)?, out), (1, [25, 20]));
    /// assert_eq!(filter.state(), FilterState::After);
    /// # Ok::<(), loftsplice::Refusal>(())
    /// ```
    ///
    /// # Errors
    ///
    /// [`Refusal::Order`] if the scan's window doesn't rise; the filter and `out` are then as they were.
    pub fn next_run(&mut self, out: &mut [i64]) -> Result<usize, Refusal> {
        self.next_run_with(Variables::default(), out)
    }

    /// The same with variable bounds, handed over once: the first of the calls reads them if the filter is before.
    ///
    /// ```
    /// use loftsplice::{Bound, Column, Filter, Variables};
    ///
    /// let mut filter = Filter::new(Column::new(&[10], &[4], &[5])?.scan(), &[], &[])?; // 10 15 20 25
    /// let below_the_input = Variables { upper: &[Bound::Exclusive(0)], inputs: &[Some(20)], ..Variables::default() };
    /// let mut out = [0; 4];
    /// assert_eq!((filter.next_run_with(below_the_input, &mut out)?, out), (2, [10, 15, 0, 0]));
    /// # Ok::<(), loftsplice::Refusal>(())
    /// ```
    ///
    /// # Errors
    ///
    /// As [`Filter::next_with`]; the filter and `out` are then as they were.
    pub fn next_run_with(
        &mut self,
        variables: Variables<'_>,
        out: &mut [i64],
    ) -> Result<usize, Refusal> {
        let lists = Lists::of(variables);
        self.ran(nexts(self.scan.column(), self.raw(), lists.lent(), out))
    }

    /// A seek of each target in turn, in any order, in one call, up to the first none. Answers how many values there are, which stand in the first places
    /// of `out`; places beyond stay as they were. As many places as targets are always enough.
    ///
    /// ```
    /// use loftsplice::{Bound, Column, Filter, Refusal};
    ///
    /// let column = Column::new(&[10, 30], &[4, 5], &[5, 0])?; // 10 15 20 25, 30
    /// let mut filter = Filter::new(column.scan(), &[Bound::Exclusive(10)], &[Bound::Inclusive(25)])?;
    /// let mut out = [0; 3];
    /// assert_eq!(filter.seek_run(&[1, 16, 17, 21], &mut out).unwrap_err(), Refusal::Room);
    /// assert_eq!(filter.seek_run(&[1, 16, 30, 21], &mut out)?, 2);
    /// assert_eq!(out, [15, 20, 0]);
    /// assert_eq!(filter.next()?, None); // 30 is beyond 25
    /// # Ok::<(), Refusal>(())
    /// ```
    ///
    /// # Errors
    ///
    /// [`Refusal::Order`] if the scan's window doesn't rise, [`Refusal::Room`] if there are more values than places; the filter and `out` are then as they
    /// were.
    pub fn seek_run(&mut self, targets: &[i64], out: &mut [i64]) -> Result<usize, Refusal> {
        self.seek_run_with(targets, Variables::default(), out)
    }

    /// The same with variable bounds, handed over once: the first of the calls reads them if the filter is before.
    ///
    /// ```
    /// use loftsplice::{Bound, Column, Filter, Variables};
    ///
    /// let mut filter = Filter::new(Column::new(&[10], &[4], &[5])?.scan(), &[], &[])?; // 10 15 20 25
    /// let above_the_input = Variables { lower: &[Bound::Exclusive(0)], inputs: &[Some(15)], ..Variables::default() };
    /// let mut out = [0; 2];
    /// assert_eq!((filter.seek_run_with(&[11, 21], above_the_input, &mut out)?, out), (2, [20, 25]));
    /// # Ok::<(), loftsplice::Refusal>(())
    /// ```
    ///
    /// # Errors
    ///
    /// As [`Filter::next_with`], then [`Refusal::Room`]; the filter and `out` are then as they were.
    pub fn seek_run_with(
        &mut self,
        targets: &[i64],
        variables: Variables<'_>,
        out: &mut [i64],
    ) -> Result<usize, Refusal> {
        let lists = Lists::of(variables);
        let filter = self.raw();
        self.ran(seeks(
            self.scan.column(),
            filter,
            targets,
            lists.lent(),
            out,
        ))
    }

    /// An iterator over the answers to seeks: for each target what [`Filter::seek`] would give, in turn. It takes many targets ahead and asks for them in
    /// one call. When it is dropped, the filter stands where the last answer that was read left it.
    ///
    /// ```
    /// use loftsplice::{Bound, Column, Filter};
    ///
    /// let column = Column::new(&[10, 30], &[4, 5], &[5, 0])?; // 10 15 20 25, 30
    /// let mut filter = Filter::new(column.scan(), &[Bound::Inclusive(10)], &[Bound::Inclusive(25)])?;
    /// assert_eq!(filter.seek_each([9, 15, 16, 26]).nth(1), Some(Ok(Some(15))));
    /// assert_eq!(filter.next()?, Some(20)); // after 15, though more was fetched
    /// let answers: Vec<_> = filter.seek_each([16, 21, 30]).collect::<Result<_, _>>()?;
    /// assert_eq!(answers, [Some(20), Some(25), None]);
    /// # Ok::<(), loftsplice::Refusal>(())
    /// ```
    pub fn seek_each<I>(&mut self, targets: I) -> SeekEach<'_, Filter<'a>, I::IntoIter>
    where
        I: IntoIterator<Item = i64>,
    {
        SeekEach::of(self, targets.into_iter())
    }

    fn ran(&mut self, ran: raw::FilterRan) -> Result<usize, Refusal> {
        self.goes_to(ran.filter);
        Refusal::or(ran.refusal, raw::places(ran.count))
    }

    /// The filter with its buffer, out of a place where one without it stays.
    #[inline]
    pub(super) fn leave(&mut self) -> Filter<'a> {
        Filter {
            scan: self.scan.leave(),
            sieve: self.sieve,
        }
    }

    /// Within, fetches elements and goes to the first of them; where none are left it is the none that makes the filter after. In the other states one
    /// call: where its elements begin, only that can tell.
    #[cold]
    pub(super) fn fetched(mut self) -> (Result<Option<i64>, Refusal>, Filter<'a>) {
        if self.sieve.state != raw::WITHIN {
            let answer = self.next_with(Variables::default());
            return (answer, self);
        }
        let sieve = self.sieve;
        let (value, ran) = self.scan.fetch(|column, scan, out| {
            let ran = nexts(column, sieve.over(scan), raw::Variables::default(), out);
            (ran.count, ran)
        });
        if value.is_none() {
            self.goes_to(ran.filter);
        }
        (Refusal::or(ran.refusal, value), self)
    }
}

impl Seeker for Filter<'_> {
    type Stands = raw::Filter;

    fn stands(&self) -> raw::Filter {
        self.raw()
    }

    fn goes_to(&mut self, filter: raw::Filter) {
        Filter::goes_to(self, filter);
    }

    fn places(&self) -> usize {
        self.scan.places()
    }

    fn seeks(&self, targets: &[i64], out: &mut [i64]) -> (u64, u32, raw::Filter) {
        let none = raw::Variables::default();
        let ran = seeks(self.scan.column(), self.raw(), targets, none, out);
        (ran.count, ran.refusal, ran.filter)
    }
}

fn nexts(
    column: Column<'_>,
    filter: raw::Filter,
    variables: raw::Variables<'_>,
    out: &mut [i64],
) -> raw::FilterRan {
    let (starts, ends, steps) = (column.starts(), column.ends(), column.steps());
    raw::filter_next_run(filter, starts, ends, steps, variables, out)
}

fn seeks(
    column: Column<'_>,
    filter: raw::Filter,
    targets: &[i64],
    variables: raw::Variables<'_>,
    out: &mut [i64],
) -> raw::FilterRan {
    let (starts, ends, steps) = (column.starts(), column.ends(), column.steps());
    raw::filter_seek_run(filter, starts, ends, steps, targets, variables, out)
}
