use alloc::vec::Vec;
use core::fmt;
use core::hash::{Hash, Hasher};

use crate::raw;

/// Values that one call fetched for an iterator, of which some are read. They follow from the scan or filter that they were fetched for, so they make no
/// difference between two of them; a clone has none, and fetches for itself.
#[derive(Default)]
pub(crate) struct Ahead {
    values: Vec<i64>,
    read: usize,
}

impl Ahead {
    /// The places that a fetch for a column of so many runs has: as many as it has runs, so that the check of the column costs no more than the values
    /// do, and so many at least that a call costs less than they do. A column has 4,096 runs at most, and so has a fetch.
    pub(crate) fn places(runs: usize) -> usize {
        runs.max(256)
    }

    /// The next value that is not read yet.
    #[inline]
    pub(crate) fn take(&mut self) -> Option<i64> {
        let value = *self.values.get(self.read)?;
        self.read += 1;
        Some(value)
    }

    /// Values of a new run, into so many places. The run gives their number, and what is handed on.
    pub(crate) fn fill<R>(&mut self, places: usize, run: impl FnOnce(&mut [i64]) -> (u64, R)) -> R {
        self.values.resize(places, 0);
        let (count, rest) = run(&mut self.values);
        self.values.truncate(raw::places(count));
        self.read = 0;
        rest
    }

    /// How many are not read yet.
    pub(crate) fn unread(&self) -> usize {
        self.values.len() - self.read
    }

    /// The scan goes elsewhere: what is not read yet is not behind it any more.
    pub(crate) fn forget(&mut self) {
        self.read = self.values.len();
    }
}

impl Clone for Ahead {
    fn clone(&self) -> Ahead {
        Ahead::default()
    }
}

impl fmt::Debug for Ahead {
    fn fmt(&self, f: &mut fmt::Formatter<'_>) -> fmt::Result {
        write!(f, "{} values", self.unread())
    }
}

impl PartialEq for Ahead {
    fn eq(&self, _: &Ahead) -> bool {
        true
    }
}

impl Eq for Ahead {}

impl Hash for Ahead {
    fn hash<H: Hasher>(&self, _: &mut H) {}
}
