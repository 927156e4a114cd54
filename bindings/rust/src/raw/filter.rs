//! A filter, and what its calls take and give.
use super::{Answer, Scan};

/// A bound, or none: kind [`FREE`](super::FREE) and value 0, which is the default.
#[repr(C)]
#[derive(Clone, Copy, Debug, Default, PartialEq, Eq, Hash)]
pub struct Limit {
    /// A value.
    pub value: i64,
    /// A kind.
    pub kind: u32,
}

/// A scan, the folded constant bounds, a state and the mode that it was made in; `kept` is read only when [`WITHIN`](super::WITHIN), and given as free
/// otherwise.
#[repr(C)]
#[derive(Clone, Copy, Debug, PartialEq, Eq, Hash)]
pub struct Filter {
    /// The scan.
    pub scan: Scan,
    /// The folded lower bound.
    pub lower: Limit,
    /// The folded upper bound.
    pub upper: Limit,
    /// The bound that is kept when within.
    pub kept: Limit,
    /// A state.
    pub state: u32,
    /// A mode.
    pub mode: u32,
}

/// A new filter; if refused, one in state [`NO_STATE`](super::NO_STATE).
#[repr(C)]
#[derive(Clone, Copy, Debug, PartialEq, Eq, Hash)]
pub struct NewFilter {
    /// The refusal's number, or 0.
    pub refusal: u32,
    /// The filter.
    pub filter: Filter,
}

/// The filter as the call leaves it, and the answer. A refusal: the filter as it went in, every number of it.
#[repr(C)]
#[derive(Clone, Copy, Debug, PartialEq, Eq, Hash)]
pub struct Sifted {
    /// The filter.
    pub filter: Filter,
    /// The answer.
    pub answer: Answer,
}

/// The filter as a run of calls leaves it, and the number of values that they gave. A refusal: the filter as it went in, every number of it.
#[repr(C)]
#[derive(Clone, Copy, Debug, PartialEq, Eq, Hash)]
pub struct FilterRan {
    /// The filter.
    pub filter: Filter,
    /// The refusal's number, or 0.
    pub refusal: u32,
    /// The number of values.
    pub count: u64,
}

/// The filter after its reset; `refusal` is 0 or [`FORM`](super::FORM).
#[repr(C)]
#[derive(Clone, Copy, Debug, PartialEq, Eq, Hash)]
pub struct Reset {
    /// The refusal's number, or 0.
    pub refusal: u32,
    /// The filter.
    pub filter: Filter,
}

/// What a filter's `next` and `seek`, and runs of them, are handed: variable bounds, an input's number (from 0) and a kind each, and inputs, a value
/// each and 1 if it has one, 0 if not.
#[derive(Clone, Copy, Debug, Default, PartialEq, Eq, Hash)]
pub struct Variables<'a> {
    /// The inputs that the lower bounds name.
    pub lower_inputs: &'a [u64],
    /// The lower bounds' kinds.
    pub lower_kinds: &'a [u8],
    /// The inputs that the upper bounds name.
    pub upper_inputs: &'a [u64],
    /// The upper bounds' kinds.
    pub upper_kinds: &'a [u8],
    /// The inputs' values.
    pub input_values: &'a [i64],
    /// Whether each input has a value: 1 or 0.
    pub input_found: &'a [u8],
}
