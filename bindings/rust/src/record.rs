use alloc::vec;
use alloc::vec::Vec;

use crate::{raw, Column, ColumnBuf, Refusal};

/// A record that was read: its column, owned, and the bytes that it takes.
///
/// ```
/// use loftsplice::{read_record, write_record, Column};
///
/// let column = Column::new(&[10], &[2], &[-5])?;
/// let bytes = write_record(column);
/// let record = read_record(&bytes)?;
/// assert_eq!(record.column(), column);
/// assert_eq!(record.used(), bytes.len());
/// # Ok::<(), loftsplice::Refusal>(())
/// ```
#[derive(Clone, Debug, PartialEq, Eq, Hash)]
pub struct Record {
    column: ColumnBuf,
    used: usize,
}

impl Record {
    /// The column: a record that was read is one.
    ///
    /// ```
    /// let record = loftsplice::read_record(&[2, 0, 0, 0, 1, 0])?;
    /// assert!(record.column().is_empty());
    /// # Ok::<(), loftsplice::Refusal>(())
    /// ```
    #[must_use]
    pub fn column(&self) -> Column<'_> {
        self.column.as_column()
    }

    /// The same, handed over.
    ///
    /// ```
    /// use loftsplice::{read_record, write_record, Column, ColumnBuf};
    ///
    /// let column = Column::new(&[10], &[2], &[-5])?;
    /// assert_eq!(read_record(&write_record(column))?.into_column(), ColumnBuf::from(column));
    /// # Ok::<(), loftsplice::Refusal>(())
    /// ```
    #[must_use]
    pub fn into_column(self) -> ColumnBuf {
        self.column
    }

    /// The bytes that the record takes; what follows them was not read.
    ///
    /// ```
    /// assert_eq!(loftsplice::read_record(&[2, 0, 0, 0, 1, 0, 99])?.used(), 6);
    /// # Ok::<(), loftsplice::Refusal>(())
    /// ```
    #[must_use]
    pub fn used(&self) -> usize {
        self.used
    }
}

/// The record at the front of the bytes.
///
/// ```
/// use loftsplice::{read_record, Refusal};
///
/// let bytes = [16, 0, 0, 0, 1, 0, 10, 0, 0, 0, 0, 0, 0, 0, 0xFB, 0xFF, 2, 0, 0, 0];
/// assert_eq!(read_record(&bytes)?.column().scan().collect::<Vec<_>>(), [10, 5]);
/// assert_eq!(read_record(&bytes[..19]).unwrap_err(), Refusal::Cut);
/// # Ok::<(), Refusal>(())
/// ```
///
/// # Errors
///
/// [`Refusal::Cut`], [`Refusal::Size`], [`Refusal::Kind`], [`Refusal::Ends`], [`Refusal::Reach`].
pub fn read_record(bytes: &[u8]) -> Result<Record, Refusal> {
    let mut column = ColumnBuf::default();
    let used = column.read(bytes)?;
    Ok(Record { column, used })
}

/// The record at the front of the bytes, as [`read_record`] gives it. What follows is not read: where nothing may follow, [`Record::used`] has to be the
/// number of bytes.
///
/// ```
/// use loftsplice::{Record, Refusal};
///
/// // one record after the other
/// let mut bytes = &[2, 0, 0, 0, 1, 0, 16, 0, 0, 0, 1, 0, 10, 0, 0, 0, 0, 0, 0, 0, 0xFB, 0xFF, 2, 0, 0, 0][..];
/// let mut lengths = Vec::new();
/// while !bytes.is_empty() {
///     let record = Record::try_from(bytes)?;
///     lengths.push(record.column().len());
///     bytes = &bytes[record.used()..];
/// }
/// assert_eq!(lengths, [0, 2]);
/// assert_eq!(Record::try_from(&[2, 0, 0, 0, 1][..]), Err(Refusal::Cut));
/// # Ok::<(), Refusal>(())
/// ```
impl TryFrom<&[u8]> for Record {
    type Error = Refusal;

    fn try_from(bytes: &[u8]) -> Result<Record, Refusal> {
        read_record(bytes)
    }
}

/// The bytes of a column's record.
///
/// ```
/// use loftsplice::{write_record, Column};
///
/// let bytes = write_record(Column::new(&[10], &[2], &[-5])?);
/// assert_eq!(bytes, [16, 0, 0, 0, 1, 0, 10, 0, 0, 0, 0, 0, 0, 0, 0xFB, 0xFF, 2, 0, 0, 0]);
/// # Ok::<(), loftsplice::Refusal>(())
/// ```
#[must_use]
pub fn write_record(column: Column<'_>) -> Vec<u8> {
    let mut out = vec![0; raw::HEAD_BYTES + raw::RUN_BYTES * column.starts().len()];
    let written = raw::write_record(column.starts(), column.ends(), column.steps(), &mut out);
    out.truncate(raw::places(written.bytes));
    out
}
