use crate::{raw, Refusal, Runs, Scan};

mod carried;

/// A column that is checked: run starts, run ends (counted from the column's beginning) and steps, all borrowed. [`ColumnBuf`](crate::ColumnBuf) owns
/// them. The default is the empty column.
///
/// ```
/// use loftsplice::{Column, Refusal};
///
/// let column = Column::new(&[10, 6], &[2, 5], &[-5, 1])?; // 10 5, 6 7 8
/// assert_eq!(column.len(), 5);
/// assert_eq!(column.get(1)?, 5);
/// assert_eq!(Column::new(&[10], &[2, 5], &[-5, 1]).unwrap_err(), Refusal::Shape);
/// # Ok::<(), Refusal>(())
/// ```
#[derive(Clone, Copy, Debug, Default, PartialEq, Eq, Hash)]
pub struct Column<'a> {
    starts: &'a [i64],
    ends: &'a [u64],
    steps: &'a [i16],
}

/// Where an index lies: the run, from 0, the offset in it, and how many elements follow.
///
/// ```
/// use loftsplice::{Column, Place};
///
/// let column = Column::new(&[10, 6], &[2, 5], &[-5, 1])?; // 10 5, 6 7 8
/// assert_eq!(column.place(3)?, Place { run: 1, offset: 1, follows: 2 });
/// # Ok::<(), loftsplice::Refusal>(())
/// ```
#[derive(Clone, Copy, Debug, PartialEq, Eq, Hash)]
pub struct Place {
    /// The run.
    pub run: usize,
    /// The offset in it.
    pub offset: u64,
    /// The number of elements from the index to the end of the run, its own among them; 0 for the length alone.
    pub follows: u64,
}

impl<'a> Column<'a> {
    /// The column of three lists.
    ///
    /// ```
    /// use loftsplice::{Column, Refusal};
    ///
    /// assert!(Column::new(&[9223372036854775800], &[8], &[1]).is_ok());
    /// assert_eq!(Column::new(&[9223372036854775800], &[9], &[1]).unwrap_err(), Refusal::Reach);
    /// ```
    ///
    /// # Errors
    ///
    /// [`Refusal::Shape`], [`Refusal::Ends`], [`Refusal::Reach`].
    pub fn new(
        starts: &'a [i64],
        ends: &'a [u64],
        steps: &'a [i16],
    ) -> Result<Column<'a>, Refusal> {
        Refusal::or(
            raw::check(starts, ends, steps),
            Column {
                starts,
                ends,
                steps,
            },
        )
    }

    /// The column of three lists that the library gave as one.
    pub(crate) const fn read(starts: &'a [i64], ends: &'a [u64], steps: &'a [i16]) -> Column<'a> {
        Column {
            starts,
            ends,
            steps,
        }
    }

    /// The run starts.
    ///
    /// ```
    /// assert_eq!(loftsplice::Column::new(&[7], &[2], &[1])?.starts(), [7]);
    /// # Ok::<(), loftsplice::Refusal>(())
    /// ```
    #[must_use]
    pub const fn starts(&self) -> &'a [i64] {
        self.starts
    }

    /// The run ends.
    ///
    /// ```
    /// assert_eq!(loftsplice::Column::new(&[7], &[2], &[1])?.ends(), [2]);
    /// # Ok::<(), loftsplice::Refusal>(())
    /// ```
    #[must_use]
    pub const fn ends(&self) -> &'a [u64] {
        self.ends
    }

    /// The steps.
    ///
    /// ```
    /// assert_eq!(loftsplice::Column::new(&[7], &[2], &[1])?.steps(), [1]);
    /// # Ok::<(), loftsplice::Refusal>(())
    /// ```
    #[must_use]
    pub const fn steps(&self) -> &'a [i16] {
        self.steps
    }

    /// The number of elements: the last run's end. It makes no call.
    ///
    /// ```
    /// assert_eq!(loftsplice::Column::new(&[7, 9], &[2, 10], &[1, 0])?.len(), 10);
    /// # Ok::<(), loftsplice::Refusal>(())
    /// ```
    #[must_use]
    pub const fn len(&self) -> u64 {
        match self.ends.last() {
            Some(end) => *end,
            None => 0,
        }
    }

    /// Whether there is no element: every run has one, so there is no run. It makes no call.
    ///
    /// ```
    /// assert!(loftsplice::Column::new(&[], &[], &[])?.is_empty());
    /// # Ok::<(), loftsplice::Refusal>(())
    /// ```
    #[must_use]
    pub const fn is_empty(&self) -> bool {
        self.ends.is_empty()
    }

    /// The place of an index, (run count, 0, 0) for the length.
    ///
    /// ```
    /// use loftsplice::{Column, Place, Refusal};
    ///
    /// let column = Column::new(&[7, 9], &[2, 10], &[1, 0])?;
    /// assert_eq!(column.place(10)?, Place { run: 2, offset: 0, follows: 0 });
    /// assert_eq!(column.place(11).unwrap_err(), Refusal::Index);
    ///
    /// // from stretch to stretch: each run once
    /// let (mut index, mut stretches) = (0, Vec::new());
    /// while index < column.len() {
    ///     let place = column.place(index)?;
    ///     stretches.push((place.run, index..index + place.follows));
    ///     index += place.follows;
    /// }
    /// assert_eq!(stretches, [(0, 0..2), (1, 2..10)]);
    /// # Ok::<(), Refusal>(())
    /// ```
    ///
    /// # Errors
    ///
    /// [`Refusal::Index`] above the length.
    pub fn place(&self, index: u64) -> Result<Place, Refusal> {
        let place = raw::place(self.starts, self.ends, self.steps, index);
        Refusal::or(
            place.refusal,
            Place {
                run: raw::places(place.run),
                offset: place.offset,
                follows: place.follows,
            },
        )
    }

    /// The element at an index.
    ///
    /// ```
    /// use loftsplice::{Column, Refusal};
    ///
    /// let column = Column::new(&[7], &[3], &[2])?;
    /// assert_eq!(column.get(2)?, 11);
    /// assert_eq!(column.get(3).unwrap_err(), Refusal::Index);
    /// # Ok::<(), Refusal>(())
    /// ```
    ///
    /// # Errors
    ///
    /// [`Refusal::Index`] at or above the length.
    pub fn get(&self, index: u64) -> Result<i64, Refusal> {
        let answer = raw::get(self.starts, self.ends, self.steps, index);
        Refusal::or(answer.refusal, answer.value)
    }

    /// The first element: the first run's start. It makes no call.
    ///
    /// ```
    /// use loftsplice::Column;
    ///
    /// assert_eq!(Column::new(&[7, 1], &[3, 5], &[2, 0])?.first(), Some(7));
    /// assert_eq!(Column::default().first(), None);
    /// # Ok::<(), loftsplice::Refusal>(())
    /// ```
    #[must_use]
    pub const fn first(&self) -> Option<i64> {
        match self.starts.first() {
            Some(start) => Some(*start),
            None => None,
        }
    }

    /// The last element.
    ///
    /// ```
    /// use loftsplice::Column;
    ///
    /// assert_eq!(Column::new(&[7, 1], &[3, 5], &[2, -4])?.last(), Some(-3));
    /// assert_eq!(Column::default().last(), None);
    /// # Ok::<(), loftsplice::Refusal>(())
    /// ```
    #[must_use]
    pub fn last(&self) -> Option<i64> {
        self.get(self.len().checked_sub(1)?).ok()
    }

    /// The runs, in order.
    ///
    /// ```
    /// use loftsplice::{Column, Run};
    ///
    /// let column = Column::new(&[10, 6], &[2, 5], &[-5, 1])?; // 10 5, 6 7 8
    /// let runs: Vec<Run> = column.runs().collect();
    /// assert_eq!(runs, [Run { start: 10, step: -5, elements: 2 }, Run { start: 6, step: 1, elements: 3 }]);
    /// # Ok::<(), loftsplice::Refusal>(())
    /// ```
    #[must_use]
    pub fn runs(&self) -> Runs<'a> {
        Runs::of(*self)
    }

    /// A fresh scan over the whole column.
    ///
    /// ```
    /// let column = loftsplice::Column::new(&[7], &[3], &[2])?;
    /// assert_eq!(column.scan().collect::<Vec<_>>(), [7, 9, 11]);
    /// # Ok::<(), loftsplice::Refusal>(())
    /// ```
    #[must_use]
    pub fn scan(&self) -> Scan<'a> {
        Scan::over(
            *self,
            raw::scan_new(self.starts, self.ends, self.steps).scan,
        )
    }

    /// The elements: a fresh scan, under the name that iterators have.
    ///
    /// ```
    /// let column = loftsplice::Column::new(&[7], &[3], &[2])?;
    /// assert_eq!(column.iter().max(), Some(11));
    /// # Ok::<(), loftsplice::Refusal>(())
    /// ```
    #[must_use]
    pub fn iter(&self) -> Scan<'a> {
        self.scan()
    }
}

/// Its elements.
///
/// ```
/// let column = loftsplice::Column::new(&[7], &[3], &[2])?;
/// let mut sum = 0;
/// for element in &column {
///     sum += element;
/// }
/// assert_eq!(sum, 27);
/// # Ok::<(), loftsplice::Refusal>(())
/// ```
impl<'a> IntoIterator for &Column<'a> {
    type Item = i64;
    type IntoIter = Scan<'a>;

    fn into_iter(self) -> Scan<'a> {
        self.iter()
    }
}

/// The step from one value to another, which there is exactly if current minus previous lies in -32,768..=32,767.
///
/// ```
/// use loftsplice::diff_step;
///
/// assert_eq!(diff_step(0, 32_767), Some(32_767));
/// assert_eq!(diff_step(0, 32_768), None);
/// assert_eq!(diff_step(i64::MIN, i64::MAX), None);
/// ```
#[must_use]
pub fn diff_step(previous: i64, current: i64) -> Option<i16> {
    let difference = raw::diff_step(previous, current);
    (difference.found == 1).then_some(difference.step)
}
