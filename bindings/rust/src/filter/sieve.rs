use crate::raw;

/// What a filter holds beside its scan, as numbers of [`raw::Filter`].
#[derive(Clone, Copy, Debug, PartialEq, Eq, Hash)]
pub(super) struct Sieve {
    pub(super) lower: raw::Limit,
    pub(super) upper: raw::Limit,
    pub(super) kept: raw::Limit,
    pub(super) state: u32,
    pub(super) mode: u32,
}

impl Sieve {
    pub(super) const fn of(filter: raw::Filter) -> Sieve {
        Sieve {
            lower: filter.lower,
            upper: filter.upper,
            kept: filter.kept,
            state: filter.state,
            mode: filter.mode,
        }
    }

    /// The filter of both.
    pub(super) const fn over(self, scan: raw::Scan) -> raw::Filter {
        raw::Filter {
            scan,
            lower: self.lower,
            upper: self.upper,
            kept: self.kept,
            state: self.state,
            mode: self.mode,
        }
    }
}
