use alloc::vec::Vec;

use crate::{raw, Column, Record, Refusal, Scan};

mod build;

/// A column that owns its lists, beside [`Column`], which borrows them; [`ColumnBuf::as_column`] lends it as one. The default is the empty column.
///
/// ```
/// use loftsplice::{write_record, Column, ColumnBuf};
///
/// let bytes = write_record(Column::new(&[10, 6], &[2, 5], &[-5, 1])?); // 10 5, 6 7 8
/// let mut column = ColumnBuf::default();
/// assert_eq!(column.read(&bytes)?, bytes.len());
/// assert_eq!(column.as_column().get(1)?, 5);
/// assert_eq!(column.iter().sum::<i64>(), 36);
/// # Ok::<(), loftsplice::Refusal>(())
/// ```
#[derive(Clone, Debug, Default, PartialEq, Eq, Hash)]
pub struct ColumnBuf {
    starts: Vec<i64>,
    ends: Vec<u64>,
    steps: Vec<i16>,
}

impl ColumnBuf {
    /// The column of three lists.
    ///
    /// ```
    /// use loftsplice::{ColumnBuf, Refusal};
    ///
    /// let column = ColumnBuf::new(vec![7], vec![3], vec![2])?;
    /// assert_eq!(column.into_lists(), (vec![7], vec![3], vec![2]));
    /// assert_eq!(ColumnBuf::new(vec![7], vec![0], vec![2]), Err(Refusal::Ends));
    /// # Ok::<(), Refusal>(())
    /// ```
    ///
    /// # Errors
    ///
    /// As [`Column::new`]: [`Refusal::Shape`], [`Refusal::Ends`], [`Refusal::Reach`]. The lists are then gone; who wants to keep them asks that first.
    pub fn new(starts: Vec<i64>, ends: Vec<u64>, steps: Vec<i16>) -> Result<ColumnBuf, Refusal> {
        Column::new(&starts, &ends, &steps)?;
        Ok(ColumnBuf {
            starts,
            ends,
            steps,
        })
    }

    /// Becomes the column of the record at the front of the bytes, in the room that it has; gives the bytes that the record takes. What follows them is
    /// not read: where nothing may follow, the number given has to be that of the bytes.
    ///
    /// ```
    /// use loftsplice::{ColumnBuf, Refusal};
    ///
    /// let bytes = [16, 0, 0, 0, 1, 0, 10, 0, 0, 0, 0, 0, 0, 0, 0xFB, 0xFF, 2, 0, 0, 0];
    /// let mut column = ColumnBuf::default();
    /// assert_eq!(column.read(&bytes)?, 20);
    /// assert_eq!(column.iter().collect::<Vec<_>>(), [10, 5]);
    /// assert_eq!(column.read(&bytes[..19]), Err(Refusal::Cut));
    /// assert_eq!(column.iter().collect::<Vec<_>>(), [10, 5]); // a refusal changes nothing
    /// # Ok::<(), Refusal>(())
    /// ```
    ///
    /// # Errors
    ///
    /// [`Refusal::Cut`], [`Refusal::Size`], [`Refusal::Kind`], [`Refusal::Ends`], [`Refusal::Reach`], and then the column is as it was.
    pub fn read(&mut self, bytes: &[u8]) -> Result<usize, Refusal> {
        let mut used = 0;
        self.fill(most_runs(bytes), |starts, ends, steps| {
            let read = raw::read_record(bytes, starts, ends, steps);
            used = read.used;
            (read.refusal, read.runs)
        })?;
        Ok(raw::places(used))
    }

    /// Becomes what a call writes into its lists, which have so many places at least; the call gives refusal and run count. A refusal leaves the column.
    pub(crate) fn fill(
        &mut self,
        least: usize,
        call: impl FnOnce(&mut [i64], &mut [u64], &mut [i16]) -> (u32, u64),
    ) -> Result<(), Refusal> {
        let had = self.starts.len();
        self.places(had.max(least));
        let (refusal, runs) = call(&mut self.starts, &mut self.ends, &mut self.steps);
        let refusal = Refusal::of(refusal);
        self.places(refusal.map_or(raw::places(runs), |_| had));
        refusal.map_or(Ok(()), Err)
    }

    /// So many places in each list.
    fn places(&mut self, runs: usize) {
        self.starts.resize(runs, 0);
        self.ends.resize(runs, 0);
        self.steps.resize(runs, 0);
    }

    /// The column, lent.
    ///
    /// ```
    /// let column = loftsplice::ColumnBuf::new(vec![7], vec![3], vec![2])?;
    /// assert_eq!(column.as_column().last(), Some(11));
    /// # Ok::<(), loftsplice::Refusal>(())
    /// ```
    #[must_use]
    pub fn as_column(&self) -> Column<'_> {
        Column::read(&self.starts, &self.ends, &self.steps)
    }

    /// A fresh scan over the whole column, which gives its elements.
    ///
    /// ```
    /// let column = loftsplice::ColumnBuf::new(vec![7], vec![3], vec![2])?;
    /// assert_eq!(column.iter().collect::<Vec<_>>(), [7, 9, 11]);
    /// # Ok::<(), loftsplice::Refusal>(())
    /// ```
    #[must_use]
    pub fn iter(&self) -> Scan<'_> {
        self.as_column().scan()
    }

    /// The three lists: starts, ends and steps.
    ///
    /// ```
    /// assert_eq!(loftsplice::ColumnBuf::default().into_lists(), (vec![], vec![], vec![]));
    /// ```
    #[must_use]
    pub fn into_lists(self) -> (Vec<i64>, Vec<u64>, Vec<i16>) {
        (self.starts, self.ends, self.steps)
    }
}

/// Runs that the record at the front of the bytes can have: by its length, which its first four bytes say, the bytes that are there, and the limit. So
/// that reading costs what the record does, however many bytes follow it; whether the length is good is the library's to say.
fn most_runs(bytes: &[u8]) -> usize {
    let length = bytes
        .first_chunk()
        .map_or(0, |&four| u32::from_le_bytes(four));
    let most = bytes.len().min(raw::places(length.into()));
    (most / raw::RUN_BYTES).min(raw::MAX_RUNS)
}

/// A copy of a column.
///
/// ```
/// use loftsplice::{Column, ColumnBuf};
///
/// let column = Column::new(&[7], &[3], &[2])?;
/// assert_eq!(ColumnBuf::from(column).as_column(), column);
/// # Ok::<(), loftsplice::Refusal>(())
/// ```
impl From<Column<'_>> for ColumnBuf {
    fn from(column: Column<'_>) -> ColumnBuf {
        ColumnBuf {
            starts: column.starts().into(),
            ends: column.ends().into(),
            steps: column.steps().into(),
        }
    }
}

/// The column of a record that was read.
///
/// ```
/// use loftsplice::{read_record, ColumnBuf};
///
/// let column = ColumnBuf::from(read_record(&[2, 0, 0, 0, 1, 0])?);
/// assert_eq!(column, ColumnBuf::default());
/// # Ok::<(), loftsplice::Refusal>(())
/// ```
impl From<Record> for ColumnBuf {
    fn from(record: Record) -> ColumnBuf {
        record.into_column()
    }
}

/// Its elements.
///
/// ```
/// let column = loftsplice::ColumnBuf::new(vec![7], vec![3], vec![2])?;
/// let mut sum = 0;
/// for element in &column {
///     sum += element;
/// }
/// assert_eq!(sum, 27);
/// # Ok::<(), loftsplice::Refusal>(())
/// ```
impl<'a> IntoIterator for &'a ColumnBuf {
    type Item = i64;
    type IntoIter = Scan<'a>;

    fn into_iter(self) -> Scan<'a> {
        self.iter()
    }
}
