use alloc::vec::Vec;
use core::fmt;
use core::iter::FusedIterator;

use crate::{raw, Refusal};

/// What answers seeks: a scan, or a filter. It can't be named outside of this crate.
pub trait Seeker {
    /// Where it stands, in numbers.
    type Stands: Copy + fmt::Debug;

    /// Where it stands.
    fn stands(&self) -> Self::Stands;

    /// To where a call of the library left it.
    fn goes_to(&mut self, stands: Self::Stands);

    /// As many seeks as are asked in one call.
    fn places(&self) -> usize;

    /// A run of seeks, from where it stands on: the number of values, the refusal's number, and where it would stand then. It stays.
    fn seeks(&self, targets: &[i64], out: &mut [i64]) -> (u64, u32, Self::Stands);
}

/// The answers of a scan or of a filter to seeks, one for each target: [`Scan::seek_each`](crate::Scan::seek_each),
/// [`Filter::seek_each`](crate::Filter::seek_each).
#[derive(Debug)]
pub struct SeekEach<'s, S: Seeker, I: Iterator<Item = i64>> {
    seeker: &'s mut S,
    targets: I,
    /// The targets of the run that was made last, and how many of them the reader has the answers to.
    asked: Vec<i64>,
    read: usize,
    /// Its values: those of the first targets. The others are answered none.
    found: Vec<i64>,
    refusal: Option<Refusal>,
    /// Where it left the scan or filter, which itself stands still where it began.
    after: S::Stands,
}

impl<'s, S: Seeker, I: Iterator<Item = i64>> SeekEach<'s, S, I> {
    pub(crate) fn of(seeker: &'s mut S, targets: I) -> SeekEach<'s, S, I> {
        let after = seeker.stands();
        SeekEach {
            seeker,
            targets,
            asked: Vec::new(),
            read: 0,
            found: Vec::new(),
            refusal: None,
            after,
        }
    }

    /// The next run of seeks, if there is a target left.
    fn ask(&mut self) {
        self.settle();
        let places = self.seeker.places();
        // before a target is taken: should that panic, the seeker stays where it stands
        self.read = 0;
        self.asked.clear();
        self.asked.extend(self.targets.by_ref().take(places));
        if self.asked.is_empty() {
            return;
        }
        self.found.resize(self.asked.len(), 0);
        let (count, refusal, after) = self.seeker.seeks(&self.asked, &mut self.found);
        self.found.truncate(raw::places(count));
        self.refusal = Refusal::of(refusal);
        self.after = after;
    }

    /// Brings the scan or filter to where the reader stands: behind the whole run, or behind as many of its seeks as were read, which are made again.
    fn settle(&mut self) {
        let stands = if self.unread() == 0 {
            self.after
        } else {
            let read = &self.asked[..self.read];
            self.seeker.seeks(read, &mut self.found).2
        };
        self.seeker.goes_to(stands);
    }

    fn unread(&self) -> usize {
        self.asked.len() - self.read
    }
}

impl<S: Seeker, I: Iterator<Item = i64>> Iterator for SeekEach<'_, S, I> {
    type Item = Result<Option<i64>, Refusal>;

    #[inline]
    fn next(&mut self) -> Option<Result<Option<i64>, Refusal>> {
        if self.unread() == 0 {
            self.ask();
            if self.asked.is_empty() {
                return None;
            }
        }
        let answer = self.found.get(self.read).copied();
        self.read += 1;
        Some(self.refusal.map_or(Ok(answer), Err))
    }

    fn size_hint(&self) -> (usize, Option<usize>) {
        let (least, most) = self.targets.size_hint();
        let unread = self.unread();
        (
            least.saturating_add(unread),
            most.and_then(|most| most.checked_add(unread)),
        )
    }
}

impl<S: Seeker, I: ExactSizeIterator<Item = i64>> ExactSizeIterator for SeekEach<'_, S, I> {}

impl<S: Seeker, I: FusedIterator<Item = i64>> FusedIterator for SeekEach<'_, S, I> {}

impl<S: Seeker, I: Iterator<Item = i64>> Drop for SeekEach<'_, S, I> {
    fn drop(&mut self) {
        self.settle();
    }
}
