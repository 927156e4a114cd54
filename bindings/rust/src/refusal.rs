use core::{error, fmt};

/// Why a call is refused.
///
/// ```
/// use loftsplice::{Column, Refusal};
///
/// let why = Column::new(&[1, 2], &[3, 3], &[0, 0]).unwrap_err();
/// assert_eq!(why, Refusal::Ends);
/// assert_eq!(why.number(), 2);
/// assert_eq!(why.to_string(), "2 ENDS: an end is not above the one before (the first: above 0), or is over 4,294,967,295");
/// ```
#[derive(Clone, Copy, Debug, PartialEq, Eq, Hash)]
#[non_exhaustive]
pub enum Refusal {
    /// 1: array lengths differ, or over 4,096 runs; values to build from, or present records, that need over 4,096 runs; over 4,294,967,295 such values.
    Shape,
    /// 2: an end is not above the one before (the first: above 0), or is over 4,294,967,295.
    Ends,
    /// 3: a run's last element is outside `i64`.
    Reach,
    /// 4: element asked at index ≥ length; place asked above length; a record that is not below the record count.
    Index,
    /// 5: window end above length, or above the record count.
    Window,
    /// 6: the scan's window end is above length, its index is outside its window, or it does not carry the element that it is at.
    Scan,
    /// 7: seek, filter or listing over a window that doesn't rise; the bitmap or a profile of a column that doesn't.
    Order,
    /// 8: over 16 bounds in a list, over 8 inputs; over 256 windows or window lists of unequal length.
    Bounds,
    /// 9: a variable bound names an input that isn't there or has no value.
    Input,
    /// 10: an output has fewer places than the answer needs.
    Room,
    /// 11: fewer than 4 bytes, or fewer than the length says; fewer bytes of a bitmap than its records need.
    Cut,
    /// 12: kind is not 1.
    Kind,
    /// 13: length under 2 or over 57,346, or length minus 2 no multiple of 14.
    Size,
    /// 14: over 524,288 records of a bitmap; over 4,294,967,295 that a profile is read of.
    Count,
    /// 15: an element is no record number.
    Range,
    /// 16: a profile that is neither 1 nor 2.
    Profile,
    /// 17: a run of two or more elements with a negative step. No call of this crate gives it yet.
    Falling,
    /// 18: a sum over all windows that is below -2^95 or not below 2^95.
    Total,
    /// 100: a number that is no state, kind or `found`, or two lists that belong together and differ in length. Only [`crate::raw`] can give it.
    Form,
    /// A number that this crate does not know.
    Other(u32),
}

/// Each refusal with its number, name and condition.
type Row = (Refusal, u32, &'static str, &'static str);
const TABLE: [Row; 19] = [
    (Refusal::Shape, 1, "SHAPE", "array lengths differ, or over 4,096 runs; values to build from, or present records, that need over 4,096 runs; over 4,294,967,295 such values"),
    (Refusal::Ends, 2, "ENDS", "an end is not above the one before (the first: above 0), or is over 4,294,967,295"),
    (Refusal::Reach, 3, "REACH", "a run's last element is outside i64"),
    (Refusal::Index, 4, "INDEX", "element asked at index ≥ length; place asked above length; a record that is not below the record count"),
    (Refusal::Window, 5, "WINDOW", "window end above length, or above the record count"),
    (Refusal::Scan, 6, "SCAN", "the scan's window end is above length, its index is outside its window, or it does not carry the element that it is at"),
    (Refusal::Order, 7, "ORDER", "seek, filter or listing over a window that doesn't rise; the bitmap or a profile of a column that doesn't"),
    (Refusal::Bounds, 8, "BOUNDS", "over 16 bounds in a list, over 8 inputs; over 256 windows or window lists of unequal length"),
    (Refusal::Input, 9, "INPUT", "a variable bound names an input that isn't there or has no value"),
    (Refusal::Room, 10, "ROOM", "an output has fewer places than the answer needs"),
    (Refusal::Cut, 11, "CUT", "fewer than 4 bytes, or fewer than the length says; fewer bytes of a bitmap than its records need"),
    (Refusal::Kind, 12, "KIND", "kind is not 1"),
    (Refusal::Size, 13, "SIZE", "length under 2 or over 57,346, or length minus 2 no multiple of 14"),
    (Refusal::Count, 14, "COUNT", "over 524,288 records of a bitmap; over 4,294,967,295 that a profile is read of"),
    (Refusal::Range, 15, "RANGE", "an element is no record number"),
    (Refusal::Profile, 16, "PROFILE", "a profile that is neither 1 nor 2"),
    (Refusal::Falling, 17, "FALLING", "a run of two or more elements with a negative step"),
    (Refusal::Total, 18, "TOTAL", "a sum over all windows that is below -2^95 or not below 2^95"),
    (Refusal::Form, 100, "FORM", "a number that is no state, kind or `found`, or two lists that belong together and differ in length"),
];

impl Refusal {
    /// The refusal's number.
    ///
    /// ```
    /// assert_eq!(loftsplice::Refusal::Order.number(), 7);
    /// ```
    #[must_use]
    pub fn number(self) -> u32 {
        match self {
            Refusal::Other(number) => number,
            known => known.row().map_or(0, |row| row.1),
        }
    }

    /// The refusal's name in the documents; `unknown` for one that this crate does not know.
    ///
    /// ```
    /// assert_eq!(loftsplice::Refusal::Order.name(), "ORDER");
    /// ```
    #[must_use]
    pub fn name(self) -> &'static str {
        self.row().map_or("unknown", |row| row.2)
    }

    fn row(self) -> Option<&'static Row> {
        TABLE.iter().find(|row| row.0 == self)
    }

    /// The refusal of a number; none for 0, which is no refusal.
    ///
    /// ```
    /// use loftsplice::Refusal;
    ///
    /// assert_eq!(Refusal::of(7), Some(Refusal::Order));
    /// assert_eq!(Refusal::of(0), None);
    /// ```
    #[must_use]
    pub fn of(number: u32) -> Option<Refusal> {
        match TABLE.iter().find(|row| row.1 == number) {
            Some(row) => Some(row.0),
            None if number == 0 => None,
            None => Some(Refusal::Other(number)),
        }
    }

    /// What a call gives that is not refused, or the refusal.
    pub(crate) fn or<T>(number: u32, given: T) -> Result<T, Refusal> {
        match Refusal::of(number) {
            None => Ok(given),
            Some(refusal) => Err(refusal),
        }
    }
}

impl fmt::Display for Refusal {
    fn fmt(&self, to: &mut fmt::Formatter<'_>) -> fmt::Result {
        match self.row() {
            Some((_, number, name, condition)) => write!(to, "{number} {name}: {condition}"),
            None => write!(to, "{}: unknown", self.number()),
        }
    }
}

impl error::Error for Refusal {}

/// The refusal's number.
///
/// ```
/// assert_eq!(u32::from(loftsplice::Refusal::Order), 7);
/// ```
impl From<Refusal> for u32 {
    fn from(refusal: Refusal) -> u32 {
        refusal.number()
    }
}

/// The refusal of a number, as [`Refusal::of`] gives it.
///
/// ```
/// use loftsplice::{NoRefusal, Refusal};
///
/// assert_eq!(Refusal::try_from(7), Ok(Refusal::Order));
/// assert_eq!(Refusal::try_from(77), Ok(Refusal::Other(77)));
/// assert_eq!(Refusal::try_from(0), Err(NoRefusal));
/// ```
impl TryFrom<u32> for Refusal {
    type Error = NoRefusal;

    fn try_from(number: u32) -> Result<Refusal, NoRefusal> {
        Refusal::of(number).ok_or(NoRefusal)
    }
}

/// The number 0, which is no refusal: the call was accepted.
///
/// ```
/// let accepted = loftsplice::Refusal::try_from(0).unwrap_err();
/// assert_eq!(accepted.to_string(), "0 is no refusal");
/// ```
#[derive(Clone, Copy, Debug, PartialEq, Eq, Hash)]
pub struct NoRefusal;

impl fmt::Display for NoRefusal {
    fn fmt(&self, to: &mut fmt::Formatter<'_>) -> fmt::Result {
        to.write_str("0 is no refusal")
    }
}

impl error::Error for NoRefusal {}
