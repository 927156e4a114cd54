use alloc::vec::Vec;

use crate::{diff_step, raw, Column, ColumnBuf, Refusal, Run};

/// Columns from plain lists.
impl ColumnBuf {
    /// The column whose elements are these values, in their order. A run starts with one value and step 0; its second value joins if the difference has a
    /// step, which becomes the run's; later values join while the difference equals it; otherwise a new run starts. No column with these elements has fewer
    /// runs.
    ///
    /// It holds some thousand of the values at a time. Of a list that is there already, `try_from` makes the column in one call.
    ///
    /// ```
    /// use loftsplice::{ColumnBuf, Refusal};
    ///
    /// let column = ColumnBuf::from_values([10, 15, 20, 25, 30, 31, 40].into_iter().filter(|log| log % 10 != 5))?;
    /// assert_eq!(column.into_lists(), (vec![10, 31], vec![3, 5], vec![10, 9]));
    /// assert_eq!(ColumnBuf::from_values((0..9_000).map(|value| value * value)), Err(Refusal::Shape));
    /// # Ok::<(), Refusal>(())
    /// ```
    ///
    /// # Errors
    ///
    /// [`Refusal::Shape`] if it takes over 4,096 runs ([`raw::MAX_RUNS`]), or there are over 4,294,967,295 values ([`raw::MAX_ELEMENTS`]).
    pub fn from_values(values: impl IntoIterator<Item = i64>) -> Result<ColumnBuf, Refusal> {
        let mut building = Building::default();
        building.add_all(values)?;
        Ok(building.done())
    }

    /// Adds values behind its elements. It becomes what [`ColumnBuf::from_values`] gives for all of them together: where values come in pieces makes no
    /// difference. A column that was not made by that rule is made anew.
    ///
    /// It is not the standard library's `Extend`, which could not be refused.
    ///
    /// ```
    /// use loftsplice::{ColumnBuf, Refusal};
    ///
    /// let mut column = ColumnBuf::from_values([10, 15])?;
    /// column.try_extend([20, 25, 30])?;
    /// assert_eq!(column, ColumnBuf::from_values([10, 15, 20, 25, 30])?);
    /// assert_eq!(column.try_extend((0..9_000).map(|value| value * value)), Err(Refusal::Shape));
    /// assert_eq!(column.iter().last(), Some(30)); // a refusal changes nothing
    /// # Ok::<(), Refusal>(())
    /// ```
    ///
    /// # Errors
    ///
    /// As [`ColumnBuf::from_values`], and then the column is as it was.
    pub fn try_extend(&mut self, values: impl IntoIterator<Item = i64>) -> Result<(), Refusal> {
        let mut building = Building::after(self.as_column())?;
        building.add_all(values)?;
        *self = building.done();
        Ok(())
    }
}

/// The column whose elements are these values, as [`ColumnBuf::from_values`] gives it, in one call.
///
/// ```
/// use loftsplice::{ColumnBuf, Refusal};
///
/// let column = ColumnBuf::try_from(&[10, 15, 20, 7][..])?;
/// assert_eq!(column.into_lists(), (vec![10, 7], vec![3, 4], vec![5, 0]));
/// # Ok::<(), Refusal>(())
/// ```
impl TryFrom<&[i64]> for ColumnBuf {
    type Error = Refusal;

    fn try_from(values: &[i64]) -> Result<ColumnBuf, Refusal> {
        let mut building = Building::default();
        building.add(values, 0)?;
        Ok(building.done())
    }
}

/// Values that are taken from an iterator before they are built: so many that a call costs less than they do.
const PIECE: usize = 16_384;

/// A column made by the rule while values come in: its runs, in lists that may be longer.
#[derive(Default)]
struct Building {
    lists: ColumnBuf,
    runs: usize,
}

impl Building {
    /// With the elements of a column, which is a copy if it was made by the rule. Made anew it has no more runs, so it is not refused.
    fn after(column: Column<'_>) -> Result<Building, Refusal> {
        if follows_the_rule(column) {
            return Ok(Building {
                lists: column.into(),
                runs: column.starts().len(),
            });
        }
        let mut building = Building::default();
        building.add_all(&column)?;
        Ok(building)
    }

    fn done(mut self) -> ColumnBuf {
        self.lists.places(self.runs);
        self.lists
    }

    fn column(&self) -> Column<'_> {
        let lists = &self.lists;
        let runs = ..self.runs;
        Column::read(&lists.starts[runs], &lists.ends[runs], &lists.steps[runs])
    }

    fn add_all(&mut self, values: impl IntoIterator<Item = i64>) -> Result<(), Refusal> {
        let mut values = values.into_iter();
        let mut piece = Vec::new();
        loop {
            piece.clear();
            self.reopen(&mut piece);
            let known = piece.len();
            piece.extend(values.by_ref().take(PIECE));
            if piece.len() == known {
                return Ok(());
            }
            self.add(&piece, known)?;
        }
    }

    /// What the rule has to know of the run that is last: its value, if it is one, or else the last two, which have its step.
    fn reopen(&self, piece: &mut Vec<i64>) {
        let Some(run) = self.column().runs().next_back() else {
            return;
        };
        let last = run.last();
        if run.elements > 1 {
            piece.push(last.wrapping_sub(i64::from(run.step)));
        }
        piece.push(last);
    }

    /// Values behind the so many first ones, which `reopen` gave. The last run is built again from those, and gets back its start and its other elements.
    fn add(&mut self, piece: &[i64], known: usize) -> Result<(), Refusal> {
        let column = self.column();
        let start = column.starts().last().copied();
        let before = column.len() - known as u64;
        if before + piece.len() as u64 > raw::MAX_ELEMENTS {
            return Err(Refusal::Shape);
        }
        let kept = self.runs - usize::from(start.is_some());
        let beyond = kept + piece.len().min(raw::MAX_RUNS - kept);
        self.lists.places(beyond.max(self.lists.starts.len()));
        let lists = &mut self.lists;
        let built = raw::build(
            piece,
            &mut lists.starts[kept..beyond],
            &mut lists.ends[kept..beyond],
            &mut lists.steps[kept..beyond],
        );
        if built.refusal != 0 {
            // 10 as well: what has no place is a run over 4,096
            return Err(Refusal::Shape);
        }
        self.runs = kept + raw::places(built.runs);
        for end in &mut lists.ends[kept..self.runs] {
            *end += before;
        }
        if let Some(start) = start {
            lists.starts[kept] = start;
        }
        Ok(())
    }
}

/// Whether a column is the one that is built from its elements: a run of one has step 0, and no run's start would have joined the run before.
fn follows_the_rule(column: Column<'_>) -> bool {
    let joins = |(run, next): (Run, Run)| {
        diff_step(run.last(), next.start).is_some_and(|step| run.elements == 1 || step == run.step)
    };
    column.runs().all(|run| run.elements > 1 || run.step == 0)
        && !column.runs().zip(column.runs().skip(1)).any(joins)
}
