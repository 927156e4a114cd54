//! The Rust's own scan and filter behind the words of `calls`. Only calls that document 01 does not refuse are brought here.
use crate::calls::{Call, Constant, Lists, Runs, Said, Variable};
use crate::columnar::column::Column as _;
use crate::columnar::column::rle::{ColumnRle, ColumnScanRle};
use crate::columnar::columnbuilder::rle::RleElement;
use crate::columnar::columnscan::{ColumnScan, ColumnScanCell};
use crate::columnar::operations::filter_interval::{ColumnScanFilterInterval, IntervalBoundConstant, IntervalBoundVariable};
use crate::datatypes::RunLengthEncodable;
use crate::datatypes::run_length_encodable::IntStep;
use std::num::NonZeroUsize;

/// The Rust's column.
pub struct Column(ColumnRle<i64>);

impl Column {
    /// From the arrays of a sound column, through the Rust's own constructor.
    pub fn new(runs: &Runs) -> Column {
        let mut before = 0;
        let elements = (0..runs.ends.len()).map(|r| {
            let length = NonZeroUsize::new((runs.ends[r] - before) as usize).expect("ENDS was tried");
            before = runs.ends[r];
            RleElement { value: runs.starts[r], length, increment: IntStep::from(runs.steps[r]) }
        });
        Column(ColumnRle::from_rle_elements(elements.collect()))
    }

    pub fn len(&self) -> u64 {
        self.0.len() as u64
    }

    pub fn is_empty(&self) -> bool {
        self.0.is_empty()
    }

    pub fn get(&self, index: u64) -> i64 {
        self.0.get(index as usize)
    }

    /// The place of an index, as the scan works it out for a window's beginning. It is private there; the Rust's own Debug text shows it.
    pub fn place(&self, index: u64) -> (u64, u64) {
        let mut scan = ColumnScanRle::new(&self.0);
        scan.narrow(index as usize..0);
        let place = shown(&format!("{scan:?}"), "lower_bound_inclusive: (");
        let (run, offset) = place.split_once(", ").expect("a pair");
        (run.parse().expect("a run"), offset.split_once(')').expect("its end").0.parse().expect("an offset"))
    }
}

/// What follows the last mention of a field in a Debug text.
fn shown(text: &str, field: &str) -> String {
    text.rsplit_once(field).map(|(_, after)| after.to_string()).unwrap_or_else(|| panic!("no {field} in {text}"))
}

pub fn diff_step(previous: i64, current: i64) -> Option<i16> {
    let step = <i64 as RunLengthEncodable>::diff_step(previous, current)?;
    let number = (current as i128 - previous as i128) as i16;
    assert!(step == IntStep::from(number), "diff_step: {step:?}");
    Some(number)
}

/// A column of the values that inputs may have, one run a value: an input stands on its value by `narrow` and `next` of the Rust's own scan.
pub fn table(values: &[i64]) -> Column {
    Column::new(&Runs::of(&values.iter().map(|&v| (v, 0, 1)).collect::<Vec<_>>()))
}

/// Whether the Rust's text is here at all (rust_absent.rs stands in for this file where it is not).
pub const PRESENT: bool = true;

/// One scan of the Rust's, with room for a filter over it.
pub struct Session<'a> {
    column: &'a ColumnRle<i64>,
    cell: &'a ColumnScanCell<'a, i64>,
    inputs: &'a [ColumnScanCell<'a, i64>],
    values: &'a [i64],
    filter: Option<Filter<'a>>,
}

struct Filter<'a> {
    made: ColumnScanFilterInterval<'a, i64>,
    lower: Vec<Constant>,
    upper: Vec<Constant>,
    /// The lists that `made` holds, and whether it is Before: only then it reads them.
    lists: Lists,
    before: bool,
}

/// Plays `with` on a new scan of the column; inputs get their values from the table of `values`.
pub fn play<R>(column: &Column, values: &[i64], table: &Column, with: impl for<'a> FnOnce(Session<'a>) -> R) -> R {
    let inputs: [ColumnScanCell<i64>; 8] = std::array::from_fn(|_| ColumnScanRle::new(&table.0).into());
    let cell = ColumnScanCell::from(ColumnScanRle::new(&column.0));
    with(Session { column: &column.0, cell: &cell, inputs: &inputs, values, filter: None })
}

impl<'a> Session<'a> {
    /// As after a new scan and `narrow`: the text's `narrow` sets every field but the column.
    pub fn restart(&mut self, start: u64, end: u64) {
        self.filter = None;
        self.cell.narrow(start as usize..end as usize);
    }

    /// Makes one accepted call and says what the Rust answered.
    pub fn call(&mut self, call: &Call) -> Said {
        match call {
            Call::New => {
                self.filter = None;
                // SAFETY: the cell's content is reached through this session alone, whose filter has just been dropped; no reference into it is left.
                unsafe { *self.cell.0.get() = ColumnScanRle::new(self.column).into() };
                Said::Ok
            }
            Call::Next => said(self.cell.next()),
            Call::Seek(target) => said(self.cell.seek(*target)),
            Call::Current => said(self.cell.current()),
            Call::Pos => self.cell.pos().map_or(Said::None, |i| Said::Index(i as u64)),
            Call::Reset => {
                self.cell.reset();
                Said::Ok
            }
            Call::Narrow(start, end) => {
                self.cell.narrow(*start as usize..*end as usize);
                Said::Ok
            }
            // It has no runs: its single calls one after the other, up to the first none.
            Call::NextRun(places) => Said::Ran((0..*places).map_while(|_| self.cell.next()).collect()),
            Call::SeekRun(targets, _) => Said::Ran(targets.iter().map_while(|t| self.cell.seek(*t)).collect()),
            // Its filter has one mode: who asks it leaves the others out.
            Call::FilterNew(_, lower, upper) => {
                let lists = Lists::default();
                let made = make(self.cell, self.inputs, &lists, lower, upper);
                self.filter = Some(Filter { made, lower: lower.clone(), upper: upper.clone(), lists, before: true });
                Said::Ok
            }
            Call::FilterNext(lists) => said(self.sift(None, lists)),
            Call::FilterSeek(target, lists) => said(self.sift(Some(*target), lists)),
            Call::FilterNextRun(lists, places) => Said::Ran((0..*places).map_while(|_| self.sift(None, lists)).collect()),
            Call::FilterSeekRun(targets, lists, _) => Said::Ran(targets.iter().map_while(|t| self.sift(Some(*t), lists)).collect()),
            Call::FilterCurrent => said(self.filter().made.current()),
            Call::FilterReset => {
                let filter = self.filter();
                filter.made.reset();
                filter.before = true;
                Said::Ok
            }
            _ => unreachable!("no call of a scan or filter"),
        }
    }

    /// The filter's `next`, or its `seek` of a target.
    fn sift(&mut self, target: Option<i64>, lists: &Lists) -> Option<i64> {
        self.hand_over(lists);
        let filter = self.filter();
        filter.before = false;
        match target {
            Some(target) => filter.made.seek(target),
            None => filter.made.next(),
        }
    }

    fn filter(&mut self) -> &mut Filter<'a> {
        self.filter.as_mut().expect("a filter was made")
    }

    /// "the oracle's filter gets that call's lists": a filter that is Before and holds other lists is made again with these.
    fn hand_over(&mut self, lists: &Lists) {
        for (cell, input) in self.inputs.iter().zip(&lists.inputs) {
            match input {
                Some(v) => {
                    let j = self.values.iter().position(|w| w == v).expect("the table has every value of an input");
                    cell.narrow(j..j + 1);
                    cell.next();
                }
                None => cell.reset(),
            }
        }
        let (cell, inputs) = (self.cell, self.inputs);
        let filter = self.filter();
        if filter.before && filter.lists != *lists {
            filter.made = make(cell, inputs, lists, &filter.lower, &filter.upper);
            filter.lists = lists.clone();
        }
    }

    /// The scan's private fields, by the Rust's own Debug text.
    pub fn inside(&self) -> Inside {
        let text = format!("{:?}", self.cell);
        let field = |name: &str| {
            let after = shown(&text, name);
            let end = after.find(|c: char| !(c.is_ascii_alphanumeric() || "-(), ".contains(c))).unwrap_or(after.len());
            after[..end].to_string()
        };
        let number = |name: &str| field(name).split(',').next().unwrap().trim().parse().expect("a number");
        let pair = |name: &str| {
            let both = field(name);
            let (a, b) = both.trim_start_matches('(').split_once(", ").expect("a pair");
            (a.parse().expect("a run"), b.split(')').next().unwrap().parse().expect("an offset"))
        };
        Inside {
            place: (number(" element_index: "), number(" increment_index: ")),
            current: shown(&text, " current: ").split(", lower").next().unwrap().to_string(),
            lower: pair("lower_bound_inclusive: "),
            upper: pair("upper_bound_exclusive: "),
            started: shown(&text, "indices_initialized: ").starts_with("true"),
        }
    }

    /// The filter's private state, by the Rust's own Debug text.
    pub fn mode(&self) -> Option<String> {
        self.filter.as_ref().map(|f| shown(&format!("{:?}", f.made), " current_state: ").trim_end_matches(" }").to_string())
    }
}

/// What a scan of the Rust's holds inside.
#[derive(Debug, PartialEq, Eq)]
pub struct Inside {
    pub place: (u64, u64),
    pub current: String,
    pub lower: (u64, u64),
    pub upper: (u64, u64),
    pub started: bool,
}

fn said(answer: Option<i64>) -> Said {
    answer.map_or(Said::None, Said::Value)
}

fn make<'a>(
    cell: &'a ColumnScanCell<'a, i64>,
    inputs: &'a [ColumnScanCell<'a, i64>],
    lists: &Lists,
    lower: &[Constant],
    upper: &[Constant],
) -> ColumnScanFilterInterval<'a, i64> {
    let constant = |b: &Constant| {
        if b.exclusive { IntervalBoundConstant::exclusive(b.value) } else { IntervalBoundConstant::inclusive(b.value) }
    };
    let variable = |b: &Variable| {
        let i = b.value as usize;
        if b.exclusive { IntervalBoundVariable::exclusive(i) } else { IntervalBoundVariable::inclusive(i) }
    };
    ColumnScanFilterInterval::new(
        cell,
        inputs.iter().take(lists.inputs.len()).collect(),
        lists.lower.iter().map(variable).collect(),
        lists.upper.iter().map(variable).collect(),
        lower.iter().map(constant).collect(),
        upper.iter().map(constant).collect(),
    )
}
