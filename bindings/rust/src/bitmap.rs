use alloc::{vec, vec::Vec};

use crate::{raw, Column, ColumnBuf, Refusal};

/// Columns from presence bitmaps, as Apache Arrow has them for validity: record i is bit i mod 8 of byte i / 8, lowest bit first, 1 for present.
impl ColumnBuf {
    /// The column of the records that are present among so many, built as [`ColumnBuf::from_values`] builds their numbers. Bits past the count are ignored, and
    /// so are bytes that it does not need. Its length is the number of records that are present.
    ///
    /// ```
    /// use loftsplice::{ColumnBuf, Refusal};
    ///
    /// let column = ColumnBuf::from_bitmap(&[0xE5, 0x01], 10)?;
    /// assert_eq!(column.iter().collect::<Vec<_>>(), [0, 2, 5, 6, 7, 8]);
    /// assert_eq!(column.into_lists(), (vec![0, 5], vec![2, 6], vec![2, 1]));
    /// assert_eq!(ColumnBuf::from_bitmap(&[0xE5, 0x01], 17), Err(Refusal::Cut));
    /// # Ok::<(), Refusal>(())
    /// ```
    ///
    /// # Errors
    ///
    /// [`Refusal::Count`] for over 524,288 records ([`raw::MAX_RECORDS`]), [`Refusal::Cut`] if there are fewer bytes than they need, [`Refusal::Shape`] if it
    /// takes over 4,096 runs ([`raw::MAX_RUNS`]).
    pub fn from_bitmap(bytes: &[u8], count: u64) -> Result<ColumnBuf, Refusal> {
        let mut column = ColumnBuf::default();
        column.read_bitmap(bytes, count)?;
        Ok(column)
    }

    /// Becomes the column that [`ColumnBuf::from_bitmap`] gives, in the room that it has; gives the number of ones that were counted.
    ///
    /// ```
    /// use loftsplice::{ColumnBuf, Refusal};
    ///
    /// let mut column = ColumnBuf::default();
    /// assert_eq!(column.read_bitmap(&[0xE5, 0x01], 10)?, 6);
    /// assert_eq!(column.as_column().len(), 6);
    /// assert_eq!(column.read_bitmap(&[], 10), Err(Refusal::Cut));
    /// assert_eq!(column.as_column().len(), 6); // a refusal changes nothing
    /// # Ok::<(), Refusal>(())
    /// ```
    ///
    /// # Errors
    ///
    /// As [`ColumnBuf::from_bitmap`], and then the column is as it was.
    pub fn read_bitmap(&mut self, bytes: &[u8], count: u64) -> Result<u64, Refusal> {
        let mut ones = 0;
        // A run has an element, so there are no more runs than records.
        let most = raw::places(count.min(raw::MAX_RUNS as u64));
        self.fill(most, |starts, ends, steps| {
            let imported = raw::import(bytes, count, starts, ends, steps);
            ones = imported.ones;
            (imported.refusal, imported.runs)
        })?;
        Ok(ones)
    }
}

/// Presence bitmaps from columns, as Apache Arrow has them for validity: record i is bit i mod 8 of byte i / 8, lowest bit first, 1 for present.
impl Column<'_> {
    /// The bitmap of so many records in which its elements are present: a byte for each eight records, with zeros past the count in the last.
    ///
    /// ```
    /// use loftsplice::{Column, ColumnBuf, Refusal};
    ///
    /// let column = Column::new(&[0, 5], &[2, 6], &[2, 1])?; // 0 2, 5 6 7 8
    /// assert_eq!(column.to_bitmap(10)?, [0xE5, 0x01]);
    /// assert_eq!(ColumnBuf::from_bitmap(&column.to_bitmap(10)?, 10)?.as_column(), column);
    /// assert_eq!(column.to_bitmap(8), Err(Refusal::Range)); // 8 is no record of eight
    /// # Ok::<(), Refusal>(())
    /// ```
    ///
    /// # Errors
    ///
    /// [`Refusal::Count`] for over 524,288 records ([`raw::MAX_RECORDS`]), [`Refusal::Order`] if it does not rise, [`Refusal::Range`] if an element is below
    /// 0, or not below the count.
    pub fn to_bitmap(&self, count: u64) -> Result<Vec<u8>, Refusal> {
        // No more places than the most records need: a count over that is the library's to refuse.
        let mut bytes = vec![0; raw::places(count.min(raw::MAX_RECORDS).div_ceil(8))];
        self.write_bitmap(count, &mut bytes)?;
        Ok(bytes)
    }

    /// Writes the bitmap that [`Column::to_bitmap`] gives into the first bytes of `out`, whatever they hold, and gives their number; bytes beyond stay.
    ///
    /// ```
    /// use loftsplice::{Column, Refusal};
    ///
    /// let column = Column::new(&[0, 5], &[2, 6], &[2, 1])?;
    /// let mut out = [0xAA; 4];
    /// assert_eq!(column.write_bitmap(10, &mut out)?, 2);
    /// assert_eq!(out, [0xE5, 0x01, 0xAA, 0xAA]);
    /// assert_eq!(column.write_bitmap(33, &mut out), Err(Refusal::Room));
    /// assert_eq!(out, [0xE5, 0x01, 0xAA, 0xAA]); // a refusal changes nothing
    /// # Ok::<(), Refusal>(())
    /// ```
    ///
    /// # Errors
    ///
    /// As [`Column::to_bitmap`], and [`Refusal::Room`] if `out` is too short.
    pub fn write_bitmap(&self, count: u64, out: &mut [u8]) -> Result<usize, Refusal> {
        let exported = raw::export(self.starts(), self.ends(), self.steps(), count, out);
        Refusal::or(exported.refusal, raw::places(exported.bytes))
    }
}
