use alloc::vec::Vec;
use core::{error, fmt, ops};

use crate::raw;

/// A bound, inclusive or exclusive: of a value, or, as `Bound<usize>`, of what the input with that number gives.
///
/// ```
/// use loftsplice::Bound;
///
/// let at_most_40 = Bound::Inclusive(40);
/// let below_the_second_input = Bound::Exclusive(1_usize);
/// assert_ne!(at_most_40, Bound::Exclusive(40));
/// # let _ = below_the_second_input;
/// ```
///
/// A bound of `std::ops` becomes one of these by `try_from`, unless it is unbounded, which is no bound; so the two ends of any range become lists of
/// bounds. The other way it is `from`.
///
/// ```
/// use std::ops::{self, RangeBounds};
///
/// use loftsplice::{Bound, Column, Filter, Unbounded};
///
/// let column = Column::new(&[10], &[4], &[5])?; // 10 15 20 25
/// let range = ..20;
/// let lower = Bound::try_from(range.start_bound().cloned()).ok();
/// let upper = Bound::try_from(range.end_bound().cloned()).ok();
/// let filter = Filter::new(column.scan(), lower.as_slice(), upper.as_slice())?;
/// assert_eq!(filter.values().collect::<Result<Vec<_>, _>>()?, [10, 15]);
///
/// assert_eq!(Bound::try_from(ops::Bound::<i64>::Unbounded), Err(Unbounded));
/// assert_eq!(ops::Bound::from(Bound::Exclusive(20)), ops::Bound::Excluded(20));
/// # Ok::<(), loftsplice::Refusal>(())
/// ```
#[derive(Clone, Copy, Debug, PartialEq, Eq, Hash)]
pub enum Bound<T = i64> {
    /// The value itself meets the bound.
    Inclusive(T),
    /// The value itself does not meet the bound.
    Exclusive(T),
}

impl<T> From<Bound<T>> for ops::Bound<T> {
    fn from(bound: Bound<T>) -> Self {
        match bound {
            Bound::Inclusive(value) => ops::Bound::Included(value),
            Bound::Exclusive(value) => ops::Bound::Excluded(value),
        }
    }
}

impl<T> TryFrom<ops::Bound<T>> for Bound<T> {
    type Error = Unbounded;

    fn try_from(bound: ops::Bound<T>) -> Result<Self, Unbounded> {
        match bound {
            ops::Bound::Included(value) => Ok(Bound::Inclusive(value)),
            ops::Bound::Excluded(value) => Ok(Bound::Exclusive(value)),
            ops::Bound::Unbounded => Err(Unbounded),
        }
    }
}

/// A range is unbounded on that side: there is no [`Bound`].
///
/// ```
/// use loftsplice::{Bound, Unbounded};
///
/// let none = Bound::try_from(std::ops::Bound::<i64>::Unbounded).unwrap_err();
/// assert_eq!(none, Unbounded);
/// assert_eq!(none.to_string(), "unbounded, which is no bound");
/// ```
#[derive(Clone, Copy, Debug, PartialEq, Eq, Hash)]
pub struct Unbounded;

impl fmt::Display for Unbounded {
    fn fmt(&self, to: &mut fmt::Formatter<'_>) -> fmt::Result {
        to.write_str("unbounded, which is no bound")
    }
}

impl error::Error for Unbounded {}

/// Which of two upper bounds of one value wins, in a filter or a listing. Lower bounds are the same in both modes.
///
/// ```
/// use loftsplice::{Bound, Column, Filter, Mode};
///
/// let column = Column::new(&[10], &[4], &[5])?; // 10 15 20 25
/// let both = [Bound::Inclusive(15), Bound::Exclusive(15)]; // at most 15, and below 15
/// let values = |mode| Filter::in_mode(mode, column.scan(), &[], &both)?.values().collect::<Result<Vec<_>, _>>();
/// assert_eq!(values(Mode::default())?, [10, 15]);
/// assert_eq!(values(Mode::ExclusiveWins)?, [10]);
/// # Ok::<(), loftsplice::Refusal>(())
/// ```
#[derive(Clone, Copy, Debug, Default, PartialEq, Eq, Hash)]
pub enum Mode {
    /// The inclusive one, as in nemo: the value itself is let through although the exclusive bound is not met.
    #[default]
    InclusiveWins,
    /// The exclusive one: what is let through meets every bound.
    ExclusiveWins,
}

impl Mode {
    /// The mode's number.
    pub(crate) const fn number(self) -> u32 {
        match self {
            Mode::InclusiveWins => raw::INCLUSIVE_WINS,
            Mode::ExclusiveWins => raw::EXCLUSIVE_WINS,
        }
    }
}

/// Variable bounds, each naming an input, and the inputs' current answers: what is handed over with a filter's `next_with` and `seek_with`, and
/// once with a run of them.
///
/// ```
/// use loftsplice::{Bound, Column, Filter, Variables};
///
/// let column = Column::new(&[10], &[4], &[5])?;
/// let mut filter = Filter::new(column.scan(), &[], &[])?;
/// let above_the_first_input = Variables { lower: &[Bound::Exclusive(0)], inputs: &[Some(15)], ..Variables::default() };
/// assert_eq!(filter.next_with(above_the_first_input)?, Some(20));
/// # Ok::<(), loftsplice::Refusal>(())
/// ```
#[derive(Clone, Copy, Debug, Default, PartialEq, Eq, Hash)]
pub struct Variables<'a> {
    /// Lower bounds, by the numbers of inputs, from 0.
    pub lower: &'a [Bound<usize>],
    /// Upper bounds.
    pub upper: &'a [Bound<usize>],
    /// The inputs' current answers.
    pub inputs: &'a [Option<i64>],
}

/// A list of bounds as two lists: what is bounded, and the kinds.
#[allow(
    clippy::cast_possible_truncation,
    reason = "the kinds are 1 and 2; a list of them crosses as bytes"
)]
pub(crate) fn lists<T: Copy, U>(bounds: &[Bound<T>], number: impl Fn(T) -> U) -> (Vec<U>, Vec<u8>) {
    bounds
        .iter()
        .map(|bound| match *bound {
            Bound::Inclusive(value) => (number(value), raw::INCLUSIVE as u8),
            Bound::Exclusive(value) => (number(value), raw::EXCLUSIVE as u8),
        })
        .unzip()
}

/// Variable bounds and inputs as the lists of numbers in which they cross.
pub(crate) struct Lists {
    lower: (Vec<u64>, Vec<u8>),
    upper: (Vec<u64>, Vec<u8>),
    inputs: (Vec<i64>, Vec<u8>),
}

impl Lists {
    pub(crate) fn of(variables: Variables<'_>) -> Lists {
        let given = |input: &Option<i64>| (input.unwrap_or(0), u8::from(input.is_some()));
        Lists {
            lower: lists(variables.lower, |input| input as u64),
            upper: lists(variables.upper, |input| input as u64),
            inputs: variables.inputs.iter().map(given).unzip(),
        }
    }

    pub(crate) fn lent(&self) -> raw::Variables<'_> {
        raw::Variables {
            lower_inputs: &self.lower.0,
            lower_kinds: &self.lower.1,
            upper_inputs: &self.upper.0,
            upper_kinds: &self.upper.1,
            input_values: &self.inputs.0,
            input_found: &self.inputs.1,
        }
    }
}

/// A limit that the library gave.
pub(crate) const fn limit(limit: raw::Limit) -> Option<Bound> {
    match limit.kind {
        raw::INCLUSIVE => Some(Bound::Inclusive(limit.value)),
        raw::EXCLUSIVE => Some(Bound::Exclusive(limit.value)),
        _ => None,
    }
}
