use super::ahead::Ahead;
use crate::seek_each::Seeker;
use crate::{raw, Column, Refusal, Scan, SeekEach};

/// Runs of calls, each behind one check of the column.
impl<'a> Scan<'a> {
    /// As many elements as `out` has places, in one call, up to the window's end: what so many `next` give. Answers how many there are; places beyond
    /// stay as they were, and with one left over the scan has ended.
    ///
    /// ```
    /// let mut scan = loftsplice::Column::new(&[10, 30], &[4, 5], &[5, 0])?.scan(); // 10 15 20 25, 30
    /// let mut out = [0; 3];
    /// assert_eq!((scan.next_run(&mut out), out), (3, [10, 15, 20]));
    /// assert_eq!(scan.pos(), Some(2));
    /// assert_eq!((scan.next_run(&mut out), out), (2, [25, 30, 20]));
    /// # Ok::<(), loftsplice::Refusal>(())
    /// ```
    pub fn next_run(&mut self, out: &mut [i64]) -> usize {
        let ran = nexts(self.column, self.stands, out);
        self.goes_to(ran.scan);
        raw::places(ran.count)
    }

    /// A seek of each target in turn, in any order, in one call, up to the first none. Answers how many values there are, which stand in the first places
    /// of `out`; places beyond stay as they were. As many places as targets are always enough.
    ///
    /// ```
    /// use loftsplice::{Column, Refusal};
    ///
    /// let mut scan = Column::new(&[10, 30], &[4, 5], &[5, 0])?.scan(); // 10 15 20 25, 30
    /// let mut out = [0; 3];
    /// assert_eq!(scan.seek_run(&[15, 16, 17, 18], &mut out).unwrap_err(), Refusal::Room);
    /// assert_eq!(scan.seek_run(&[15, 16, 31, 30], &mut out)?, 2);
    /// assert_eq!(out, [15, 20, 0]);
    /// assert_eq!(scan.next(), None); // 31 ended it
    /// # Ok::<(), Refusal>(())
    /// ```
    ///
    /// # Errors
    ///
    /// [`Refusal::Order`] if the window doesn't rise, [`Refusal::Room`] if there are more values than places; the scan and `out` are then as they were.
    pub fn seek_run(&mut self, targets: &[i64], out: &mut [i64]) -> Result<usize, Refusal> {
        let ran = seeks(self.column, self.stands, targets, out);
        self.goes_to(ran.scan);
        Refusal::or(ran.refusal, raw::places(ran.count))
    }

    /// An iterator over the answers to seeks: for each target what [`Scan::seek`] would give, in turn. It takes many targets ahead and asks for them in
    /// one call. When it is dropped, the scan stands where the last answer that was read left it.
    ///
    /// ```
    /// let mut scan = loftsplice::Column::new(&[10, 30], &[4, 5], &[5, 0])?.scan(); // 10 15 20 25, 30
    /// let logs = [9, 15, 16, 40];
    /// let answers: Vec<_> = scan.seek_each(logs).collect::<Result<_, _>>()?;
    /// assert_eq!(answers, [Some(10), Some(15), Some(20), None]);
    ///
    /// scan.reset();
    /// assert_eq!(scan.seek_each(logs).nth(1), Some(Ok(Some(15))));
    /// assert_eq!(scan.next(), Some(20)); // after 15, though more was fetched
    /// # Ok::<(), loftsplice::Refusal>(())
    /// ```
    pub fn seek_each<I>(&mut self, targets: I) -> SeekEach<'_, Scan<'a>, I::IntoIter>
    where
        I: IntoIterator<Item = i64>,
    {
        SeekEach::of(self, targets.into_iter())
    }

    /// Fetches elements, and goes to the first of them. Where none are left it is the none that ends the scan.
    #[cold]
    pub(super) fn fetched(mut self) -> (Option<i64>, Scan<'a>) {
        let (value, ran) = self.fetch(|column, scan, out| {
            let ran = nexts(column, scan, out);
            (ran.count, ran)
        });
        if value.is_none() {
            self.stands = ran.scan;
        }
        (value, self)
    }

    /// Fetches elements by a run of nexts, the scan's own or those of a filter that holds it, and goes to the first of them, if there is one: a scan at an
    /// index carries the element there. What else the run gave is handed on.
    pub(crate) fn fetch<R>(
        &mut self,
        run: impl FnOnce(Column<'a>, raw::Scan, &mut [i64]) -> (u64, R),
    ) -> (Option<i64>, R) {
        let (column, scan, index) = (self.column, self.stands, self.upcoming());
        let most = Ahead::places(column.starts().len());
        let places = raw::places(self.left()).clamp(1, most);
        let rest = self.ahead.fill(places, |out| run(column, scan, out));
        let value = self.ahead.take();
        if let Some(value) = value {
            self.stands = raw::Scan {
                index,
                value,
                state: raw::AT,
                found: 1,
                ..scan
            };
        }
        (value, rest)
    }
}

impl Seeker for Scan<'_> {
    type Stands = raw::Scan;

    fn stands(&self) -> raw::Scan {
        self.stands
    }

    fn goes_to(&mut self, scan: raw::Scan) {
        Scan::goes_to(self, scan);
    }

    fn places(&self) -> usize {
        Ahead::places(self.column.starts().len())
    }

    fn seeks(&self, targets: &[i64], out: &mut [i64]) -> (u64, u32, raw::Scan) {
        let ran = seeks(self.column, self.stands, targets, out);
        (ran.count, ran.refusal, ran.scan)
    }
}

fn nexts(column: Column<'_>, scan: raw::Scan, out: &mut [i64]) -> raw::Ran {
    raw::scan_next_run(scan, column.starts(), column.ends(), column.steps(), out)
}

fn seeks(column: Column<'_>, scan: raw::Scan, targets: &[i64], out: &mut [i64]) -> raw::Ran {
    raw::scan_seek_run(
        scan,
        column.starts(),
        column.ends(),
        column.steps(),
        targets,
        out,
    )
}
