use alloc::{vec, vec::Vec};
use core::ops::RangeBounds;

use crate::{raw, window, Column, Refusal};

/// How a column speaks of an optional field of records.
///
/// ```
/// use loftsplice::{Profile, Refusal};
///
/// assert_eq!(Profile::try_from(2), Ok(Profile::Empty));
/// assert_eq!(Profile::try_from(3), Err(Refusal::Profile));
/// assert_eq!(u32::from(Profile::Carrying), 1);
/// ```
#[derive(Clone, Copy, Debug, Default, PartialEq, Eq, Hash)]
pub enum Profile {
    /// 1: its elements are the records that carry the field.
    #[default]
    Carrying,
    /// 2: its elements are the records that leave the field empty.
    Empty,
}

/// The profile's number.
impl From<Profile> for u32 {
    fn from(profile: Profile) -> u32 {
        match profile {
            Profile::Carrying => raw::LISTS_CARRYING,
            Profile::Empty => raw::LISTS_EMPTY,
        }
    }
}

/// The profile of a number; [`Refusal::Profile`] for any but 1 and 2.
impl TryFrom<u32> for Profile {
    type Error = Refusal;

    fn try_from(number: u32) -> Result<Profile, Refusal> {
        match number {
            raw::LISTS_CARRYING => Ok(Profile::Carrying),
            raw::LISTS_EMPTY => Ok(Profile::Empty),
            _ => Err(Refusal::Profile),
        }
    }
}

/// An optional field of so many records, as a column and its profile tell it: which records carry it, and which do not and are filled. It is made by
/// [`Column::fields`], which tries the column, so no call on it is refused 1, 2, 3, 7, 14, 15 or 16.
///
/// ```
/// use loftsplice::{Column, Profile, Refusal};
///
/// let column = Column::new(&[0, 5], &[2, 6], &[2, 1])?; // 0 2, 5 6 7 8
/// let fields = column.fields(Profile::Carrying, 10)?;
/// assert!(fields.carries(5)?);
/// assert_eq!(fields.carrying(1..7)?, [2, 5, 6]);
/// assert_eq!(fields.filled(..)?, [1, 3, 4, 9]);
///
/// // the same column of the records that leave the field empty: the opposite
/// let opposite = column.fields(Profile::Empty, 10)?;
/// assert!(!opposite.carries(5)?);
/// assert_eq!(opposite.carrying(..)?, fields.filled(..)?);
/// # Ok::<(), Refusal>(())
/// ```
#[derive(Clone, Copy, Debug, PartialEq, Eq, Hash)]
pub struct Fields<'a> {
    column: Column<'a>,
    profile: Profile,
    count: u64,
}

/// Columns of record numbers, read by a profile.
impl<'a> Column<'a> {
    /// The field of so many records that this column tells by a profile.
    ///
    /// ```
    /// use loftsplice::{Column, Profile, Refusal};
    ///
    /// let column = Column::new(&[0, 5], &[2, 6], &[2, 1])?; // 0 2, 5 6 7 8
    /// assert_eq!(column.fields(Profile::Empty, 9)?.count(), 9);
    /// assert_eq!(column.fields(Profile::Empty, 8), Err(Refusal::Range)); // 8 is no record of eight
    /// assert_eq!(column.fields(Profile::Empty, 1 << 32), Err(Refusal::Count));
    /// assert_eq!(Column::new(&[5, 3], &[1, 2], &[0, 0])?.fields(Profile::Empty, 9), Err(Refusal::Order));
    /// # Ok::<(), Refusal>(())
    /// ```
    ///
    /// # Errors
    ///
    /// [`Refusal::Count`] for over 4,294,967,295 records ([`raw::MAX_PROFILE_RECORDS`]), [`Refusal::Order`] if the column does not rise,
    /// [`Refusal::Range`] if an element is below 0, or not below the count.
    pub fn fields(&self, profile: Profile, count: u64) -> Result<Fields<'a>, Refusal> {
        let fields = Fields {
            column: *self,
            profile,
            count,
        };
        // The empty window, which takes no room: it is refused for the column and the count alone.
        fields.list(raw::carrying, (0, 0), &mut []).map(|_| fields)
    }
}

/// One of the two listing calls.
type Call = fn(u32, u64, &[i64], &[u64], &[i16], u64, u64, &mut [u64]) -> raw::Records;

impl<'a> Fields<'a> {
    /// The column.
    ///
    /// ```
    /// use loftsplice::{Column, Profile};
    ///
    /// let column = Column::new(&[7], &[3], &[2])?;
    /// assert_eq!(column.fields(Profile::Carrying, 12)?.column(), column);
    /// # Ok::<(), loftsplice::Refusal>(())
    /// ```
    #[must_use]
    pub const fn column(&self) -> Column<'a> {
        self.column
    }

    /// The profile.
    ///
    /// ```
    /// use loftsplice::{Column, Profile};
    ///
    /// assert_eq!(Column::default().fields(Profile::Empty, 12)?.profile(), Profile::Empty);
    /// # Ok::<(), loftsplice::Refusal>(())
    /// ```
    #[must_use]
    pub const fn profile(&self) -> Profile {
        self.profile
    }

    /// The number of records.
    ///
    /// ```
    /// use loftsplice::{Column, Profile};
    ///
    /// assert_eq!(Column::default().fields(Profile::Empty, 12)?.count(), 12);
    /// # Ok::<(), loftsplice::Refusal>(())
    /// ```
    #[must_use]
    pub const fn count(&self) -> u64 {
        self.count
    }

    /// Whether a record carries the field.
    ///
    /// ```
    /// use loftsplice::{Column, Profile, Refusal};
    ///
    /// let fields = Column::new(&[5], &[4], &[1])?.fields(Profile::Carrying, 10)?; // 5 6 7 8
    /// assert_eq!((fields.carries(8)?, fields.carries(9)?), (true, false));
    /// assert_eq!(fields.carries(10), Err(Refusal::Index));
    /// # Ok::<(), Refusal>(())
    /// ```
    ///
    /// # Errors
    ///
    /// [`Refusal::Index`] for a record that is not below the count.
    pub fn carries(&self, record: u64) -> Result<bool, Refusal> {
        let (starts, ends, steps) = self.lists();
        let carried = raw::carries(self.profile.into(), self.count, starts, ends, steps, record);
        Refusal::or(carried.refusal, carried.carries == 1)
    }

    /// The records of a window that carry the field, in order. An open end is the count.
    ///
    /// ```
    /// use loftsplice::{Column, Profile, Refusal};
    ///
    /// let fields = Column::new(&[5], &[4], &[1])?.fields(Profile::Carrying, 10)?; // 5 6 7 8
    /// assert_eq!(fields.carrying(7..)?, [7, 8]);
    /// assert_eq!(fields.carrying(7..11), Err(Refusal::Window));
    /// # Ok::<(), Refusal>(())
    /// ```
    ///
    /// # Errors
    ///
    /// [`Refusal::Window`] if the window ends above the count.
    pub fn carrying(&self, window: impl RangeBounds<u64>) -> Result<Vec<u64>, Refusal> {
        self.whole(raw::carrying, &window, self.profile == Profile::Carrying)
    }

    /// The records of a window that do not carry the field, in order: those that are filled.
    ///
    /// ```
    /// use loftsplice::{Column, Profile, Refusal};
    ///
    /// let fields = Column::new(&[5], &[4], &[1])?.fields(Profile::Carrying, 10)?; // 5 6 7 8
    /// assert_eq!(fields.filled(3..)?, [3, 4, 9]);
    /// # Ok::<(), Refusal>(())
    /// ```
    ///
    /// # Errors
    ///
    /// As [`Fields::carrying`].
    pub fn filled(&self, window: impl RangeBounds<u64>) -> Result<Vec<u64>, Refusal> {
        self.whole(raw::filled, &window, self.profile == Profile::Empty)
    }

    /// Writes what [`Fields::carrying`] gives into the first places of `out`, and gives their number; places beyond stay. As many places as the window has
    /// records are always enough.
    ///
    /// ```
    /// use loftsplice::{Column, Profile, Refusal};
    ///
    /// let fields = Column::new(&[5], &[4], &[1])?.fields(Profile::Carrying, 10)?; // 5 6 7 8
    /// let mut out = [77; 3];
    /// assert_eq!(fields.carrying_into(7.., &mut out)?, 2);
    /// assert_eq!(fields.carrying_into(.., &mut out), Err(Refusal::Room));
    /// assert_eq!(out, [7, 8, 77]); // a refusal changes nothing
    /// # Ok::<(), Refusal>(())
    /// ```
    ///
    /// # Errors
    ///
    /// As [`Fields::carrying`], and [`Refusal::Room`] if `out` is too short.
    pub fn carrying_into(
        &self,
        window: impl RangeBounds<u64>,
        out: &mut [u64],
    ) -> Result<usize, Refusal> {
        self.list(raw::carrying, window::of(&window, self.count), out)
    }

    /// Writes what [`Fields::filled`] gives, in the same way.
    ///
    /// ```
    /// use loftsplice::{Column, Profile, Refusal};
    ///
    /// let fields = Column::new(&[5], &[4], &[1])?.fields(Profile::Carrying, 10)?; // 5 6 7 8
    /// let mut out = [77; 4];
    /// assert_eq!(fields.filled_into(3..10, &mut out)?, 3);
    /// assert_eq!(out, [3, 4, 9, 77]);
    /// # Ok::<(), Refusal>(())
    /// ```
    ///
    /// # Errors
    ///
    /// As [`Fields::carrying_into`].
    pub fn filled_into(
        &self,
        window: impl RangeBounds<u64>,
        out: &mut [u64],
    ) -> Result<usize, Refusal> {
        self.list(raw::filled, window::of(&window, self.count), out)
    }

    fn lists(&self) -> (&'a [i64], &'a [u64], &'a [i16]) {
        (
            self.column.starts(),
            self.column.ends(),
            self.column.steps(),
        )
    }

    fn list(&self, call: Call, window: (u64, u64), out: &mut [u64]) -> Result<usize, Refusal> {
        let (starts, ends, steps) = self.lists();
        let records = call(
            self.profile.into(),
            self.count,
            starts,
            ends,
            steps,
            window.0,
            window.1,
            out,
        );
        Refusal::or(records.refusal, raw::places(records.written))
    }

    /// A list into just as many places as it takes. `elements`: it is of the column's own elements, not of the other records.
    fn whole(
        &self,
        call: Call,
        window: &impl RangeBounds<u64>,
        elements: bool,
    ) -> Result<Vec<u64>, Refusal> {
        let (start, end) = window::of(window, self.count);
        let own = self.below(end) - self.below(start.min(end));
        let others = end.saturating_sub(start) - own;
        // No place where the window ends above the count: that is the library's to refuse.
        let places = match (end <= self.count, elements) {
            (false, _) => 0,
            (true, true) => own,
            (true, false) => others,
        };
        let mut out = vec![0; raw::places(places)];
        self.list(call, (start, end), &mut out)?;
        Ok(out)
    }

    /// How many elements are below a number: the index at which a seek of it stands.
    fn below(&self, number: u64) -> u64 {
        let mut scan = self.column.scan();
        let sought = i64::try_from(number).map(|number| scan.seek(number));
        match sought {
            Ok(Ok(Some(_))) => scan.pos().unwrap_or(0),
            _ => self.column.len(),
        }
    }
}
