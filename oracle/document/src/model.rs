//! Document 01, sentence by sentence, in plain Rust: elements by exact arithmetic in i128, everything looked for run by run from the front. It
//! was written from the document and shares no code with the port or the Rust. What it remembers (a column's check, whether the window rises)
//! depends on the arrays alone.
use crate::calls::*;
use std::cell::Cell;

mod bitmap;
mod profile;
mod totals;

pub const SHAPE: u32 = 1;
pub const ENDS: u32 = 2;
pub const REACH: u32 = 3;
pub const INDEX: u32 = 4;
pub const WINDOW: u32 = 5;
pub const SCAN: u32 = 6;
pub const ORDER: u32 = 7;
pub const BOUNDS: u32 = 8;
pub const INPUT: u32 = 9;
pub const ROOM: u32 = 10;
pub const CUT: u32 = 11;
pub const KIND: u32 = 12;
pub const SIZE: u32 = 13;
pub const COUNT: u32 = 14;
pub const RANGE: u32 = 15;
pub const PROFILE: u32 = 16;
pub const TOTAL: u32 = 18;

const LONGEST: u64 = 4_294_967_295;
const MOST_RUNS: usize = 4096;

type Outcome<T> = Result<T, u32>;

fn refuse_if(condition: bool, number: u32) -> Outcome<()> {
    if condition { Err(number) } else { Ok(()) }
}

/// "A step between two values (`diff_step`) exists exactly if current minus previous lies in -32,768..32,767."
pub fn diff_step(previous: i64, current: i64) -> Option<i16> {
    let difference = i128::from(current) - i128::from(previous);
    if (-32_768..=32_767).contains(&difference) { Some(difference as i16) } else { None }
}

pub struct Column<'a> {
    pub runs: &'a Runs,
    check: Outcome<u64>,
    rises: Cell<Option<(u64, u64, bool)>>,
}

impl<'a> Column<'a> {
    pub fn new(runs: &'a Runs) -> Self {
        Column { runs, check: check(runs), rises: Cell::new(None) }
    }

    /// 1, 2 and 3; the length.
    pub fn check(&self) -> Outcome<u64> {
        self.check
    }

    /// Where run r begins: the end of the run before, or 0.
    fn begin(&self, r: usize) -> u64 {
        if r == 0 { 0 } else { self.runs.ends[r - 1] }
    }

    /// "The element at offset k of a run is its start plus step times k, worked out exactly."
    fn in_run(&self, r: usize, k: u64) -> i128 {
        i128::from(self.runs.starts[r]) + i128::from(self.runs.steps[r]) * i128::from(k)
    }

    /// "Index i lies in the first run whose end is above i; its offset is i minus the end of the run before, or minus 0."
    fn place_of(&self, i: u64) -> (usize, u64) {
        let r = self.runs.ends.iter().position(|&e| e > i).unwrap_or(self.runs.ends.len());
        (r, i - self.begin(r))
    }

    /// The element at an index below the length of a sound column.
    pub fn at(&self, i: u64) -> i64 {
        let (r, k) = self.place_of(i);
        i64::try_from(self.in_run(r, k)).expect("REACH was tried")
    }

    /// Document 02: "run, offset and the number of elements from that index to the end of the run; for the index equal to length that number is 0."
    pub fn place(&self, i: u64) -> Outcome<(u64, u64, u64)> {
        refuse_if(i > self.check?, INDEX)?;
        let (r, k) = self.place_of(i);
        let follows = self.runs.ends.get(r).map_or(0, |end| end - i);
        Ok((r as u64, k, follows))
    }

    pub fn element(&self, i: u64) -> Outcome<i64> {
        refuse_if(i >= self.check?, INDEX)?;
        Ok(self.at(i))
    }

    /// The runs that the indices from..to touch: run, first and last offset.
    fn touched(&self, from: u64, to: u64) -> impl Iterator<Item = (usize, u64, u64)> + '_ {
        let first = self.place_of(from).0;
        (first..self.runs.ends.len()).take_while(move |&r| self.begin(r) < to && from < to).map(move |r| {
            let begin = self.begin(r);
            (r, from.max(begin) - begin, to.min(self.runs.ends[r]) - 1 - begin)
        })
    }

    /// "A window rises if each element is above the one before. Windows of 0 and 1 elements rise."
    pub fn rises(&self, start: u64, end: u64) -> bool {
        if let Some((s, e, known)) = self.rises.get()
            && (s, e) == (start, end)
        {
            return known;
        }
        let mut before: Option<i128> = None;
        let mut rises = true;
        for (r, first, last) in self.touched(start, end) {
            rises &= before.is_none_or(|b| b < self.in_run(r, first));
            rises &= first == last || self.runs.steps[r] > 0;
            before = Some(self.in_run(r, last));
        }
        self.rises.set(Some((start, end, rises)));
        rises
    }

    /// The first index from `from` on, below `to`, whose element is not below the target.
    pub fn first_from(&self, from: u64, to: u64, target: i64) -> Option<u64> {
        let target = i128::from(target);
        for (r, first, last) in self.touched(from, to) {
            let begin = self.begin(r);
            if self.in_run(r, first) >= target {
                return Some(begin + first);
            }
            let step = i128::from(self.runs.steps[r]);
            if step > 0 && self.in_run(r, last) >= target {
                let far = target - i128::from(self.runs.starts[r]);
                return Some(begin + u64::try_from((far + step - 1) / step).expect("up to the last offset"));
            }
        }
        None
    }

    /// Where the Rust's `value - start_value` overflows, and nowhere else: "let p be the last run, among those that the window touches from the
    /// present index on, whose start is below the target; the Rust panics exactly if p exists, its step is not 0 and target - start(p) is above
    /// i64::MAX".
    pub fn overflows(&self, scan: &Scan, target: i64) -> bool {
        let from = match scan.state {
            State::Fresh => scan.start,
            State::At(i) => i,
            State::Ended => return false,
        };
        let p = self.touched(from, scan.end).map(|(r, _, _)| r).filter(|&r| self.runs.starts[r] < target).last();
        p.is_some_and(|r| {
            self.runs.steps[r] != 0 && i128::from(target) - i128::from(self.runs.starts[r]) > i128::from(i64::MAX)
        })
    }
}

fn check(runs: &Runs) -> Outcome<u64> {
    let n = runs.ends.len();
    refuse_if(runs.starts.len() != n || runs.steps.len() != n || n > MOST_RUNS, SHAPE)?;
    for r in 0..n {
        let before = if r == 0 { 0 } else { runs.ends[r - 1] };
        refuse_if(runs.ends[r] <= before || runs.ends[r] > LONGEST, ENDS)?;
    }
    for r in 0..n {
        let before = if r == 0 { 0 } else { runs.ends[r - 1] };
        let last = i128::from(runs.starts[r]) + i128::from(runs.steps[r]) * i128::from(runs.ends[r] - before - 1);
        refuse_if(i64::try_from(last).is_err(), REACH)?;
    }
    Ok(runs.ends.last().copied().unwrap_or(0))
}

/// A scan, and the filter over it once there is one: folded bounds, state, and which upper bound wins.
#[derive(Clone, Copy)]
pub struct Session<'a> {
    pub column: &'a Column<'a>,
    pub scan: Scan,
    pub filter: Option<Sieve>,
    /// Whether the last call asked of the Rust a seek that overflows there.
    pub overflow: bool,
}

#[derive(Clone, Copy, Debug, PartialEq, Eq)]
pub struct Sieve {
    pub lower: Option<Constant>,
    pub upper: Option<Constant>,
    pub wins: Wins,
    pub mode: Mode,
}

impl Sieve {
    /// A filter with no constant bounds, Before, where the inclusive bound wins.
    pub const OPEN: Sieve = Sieve { lower: None, upper: None, wins: Wins::Inclusive, mode: Mode::Before };
}

impl<'a> Session<'a> {
    /// "A new scan has the whole column." On a column that is refused: an empty window, which no call accepts.
    pub fn new(column: &'a Column<'a>) -> Self {
        let end = column.check.unwrap_or(0);
        Session { column, scan: Scan::fresh(0, end), filter: None, overflow: false }
    }

    pub fn call(&mut self, call: &Call) -> Said {
        self.overflow = false;
        self.answer(call).unwrap_or_else(Said::Refused)
    }

    fn answer(&mut self, call: &Call) -> Outcome<Said> {
        Ok(match call {
            Call::New => {
                self.column.check?;
                *self = Session::new(self.column);
                Said::Ok
            }
            Call::Next => {
                self.tried()?;
                said(self.next())
            }
            Call::Seek(target) => {
                self.tried()?;
                self.ordered()?;
                said(self.seek(*target))
            }
            Call::Current => said(self.carried()?),
            Call::Pos => {
                self.tried()?;
                match self.scan.state {
                    State::At(i) => Said::Index(i),
                    _ => Said::None,
                }
            }
            Call::Reset => {
                self.tried()?;
                self.scan = Scan::fresh(self.scan.start, self.scan.end);
                Said::Ok
            }
            Call::Narrow(start, end) => {
                refuse_if(*end > self.tried()?, WINDOW)?;
                self.scan = Scan::fresh(*start, *end);
                Said::Ok
            }
            Call::NextRun(places) => {
                self.tried()?;
                Said::Ran((0..*places).map_while(|_| self.next()).collect())
            }
            Call::SeekRun(targets, places) => {
                self.tried()?;
                self.ordered()?;
                // Request 20: "a `seek` of each target in turn .. stops at the first none"; "then 10 where `out` has fewer places than there are values".
                let mut after = *self;
                let values: Vec<i64> = targets.iter().map_while(|t| after.seek(*t)).collect();
                refuse_if(values.len() > *places, ROOM)?;
                *self = after;
                Said::Ran(values)
            }
            Call::FilterNew(wins, lower, upper) => {
                refuse_if(lower.len() > 16 || upper.len() > 16, BOUNDS)?;
                // "The lower bound is the greatest of all lower bounds, the upper the least of all upper bounds in that order".
                let (lower, upper) = (lower.iter().copied().max(), least(*wins, upper));
                self.filter = Some(Sieve { lower, upper, wins: *wins, mode: Mode::Before });
                Said::Ok
            }
            Call::FilterNext(lists) => said(self.sift(None, lists)?),
            Call::FilterSeek(target, lists) => said(self.sift(Some(*target), lists)?),
            Call::FilterNextRun(lists, places) => self.sifts((0..*places).map(|_| None), lists, *places)?,
            Call::FilterSeekRun(targets, lists, places) => self.sifts(targets.iter().map(|t| Some(*t)), lists, *places)?,
            Call::FilterCurrent => {
                // "the filter's the same when Within, else none"
                let carried = self.carried()?;
                match self.sieve().mode {
                    Mode::Within(_) => said(carried),
                    _ => Said::None,
                }
            }
            Call::FilterReset => {
                let sieve = self.sieve();
                self.filter = Some(Sieve { mode: Mode::Before, ..sieve });
                Said::Ok
            }
            Call::Set(scan) => {
                self.scan = *scan;
                self.filter = None;
                Said::Ok
            }
            Call::FilterSet(wins, mode) => {
                self.filter = Some(Sieve { wins: *wins, mode: *mode, ..Sieve::OPEN });
                Said::Ok
            }
            Call::Check => Said::Length(self.column.check?),
            Call::Place(i) => {
                let (r, k, n) = self.column.place(*i)?;
                Said::Place(r, k, n)
            }
            Call::Element(i) => Said::Value(self.column.element(*i)?),
            Call::Diff(previous, current) => said(diff_step(*previous, *current).map(i64::from)),
            Call::List(listing) => list(self.column, listing)?,
            Call::Read(bytes, places) => read(bytes, *places)?,
            Call::Write(places) => write(self.column, *places)?,
            Call::Build(values, places) => Said::Built(build(values, *places)?),
            Call::Import(bytes, count, places) => bitmap::import(bytes, *count, *places)?,
            Call::Export(count, places) => bitmap::export(self.column, *count, *places)?,
            Call::Carries(profile, count, record) => profile::carries(self.column, *profile, *count, *record)?,
            Call::Profile(fields) => profile::list(self.column, fields)?,
            Call::Totals(from, to, places) => totals::totals(self.column, from, to, *places)?,
        })
    }

    /// The filter; a call on none is a mistake of the harness.
    fn sieve(&self) -> Sieve {
        self.filter.expect("a filter was made")
    }

    /// 1, 2, 3 and 6; the length.
    fn tried(&self) -> Outcome<u64> {
        let length = self.column.check?;
        let Scan { start, end, state, .. } = self.scan;
        let outside = matches!(state, State::At(i) if i < start || i >= end);
        refuse_if(end > length || outside, SCAN)?;
        // Document 02, request 8: ".. and where the carried value is not the column's element at that index".
        let carried = self.carried()?;
        refuse_if(matches!(state, State::At(i) if carried != Some(self.column.at(i))), SCAN)?;
        Ok(length)
    }

    /// Document 02, request 8: "refuses 6 only where a value is there when fresh or ended or missing at an index"; what is carried.
    fn carried(&self) -> Outcome<Option<i64>> {
        let at = matches!(self.scan.state, State::At(_));
        refuse_if(at != self.scan.value.is_some(), SCAN)?;
        Ok(self.scan.value)
    }

    /// 7
    fn ordered(&self) -> Outcome<()> {
        refuse_if(!self.column.rises(self.scan.start, self.scan.end), ORDER)
    }

    /// To an index, or past the window. "The scan shall carry the element that it stands on, none when fresh or ended".
    fn stand(&mut self, to: Option<u64>) -> Option<i64> {
        self.scan.state = to.map_or(State::Ended, State::At);
        self.scan.value = to.map(|i| self.column.at(i));
        self.scan.value
    }

    /// "fresh goes to the window's first index, an index to the one after it; past the window is ended; ended stays ended."
    fn next(&mut self) -> Option<i64> {
        let to = match self.scan.state {
            State::Fresh => Some(self.scan.start),
            State::At(i) => Some(i + 1),
            State::Ended => None,
        };
        self.stand(to.filter(|&i| i < self.scan.end))
    }

    /// "from the current index (fresh: from the window's start) to the first index whose element is not below the target. It may stay. If there
    /// is none, it ends and answers none; an ended scan stays ended."
    fn seek(&mut self, target: i64) -> Option<i64> {
        self.overflow |= self.column.overflows(&self.scan, target);
        let from = match self.scan.state {
            State::Fresh => Some(self.scan.start),
            State::At(i) => Some(i),
            State::Ended => None,
        };
        let found = from.and_then(|i| self.column.first_from(i, self.scan.end, target));
        self.stand(found)
    }

    /// Request 20, of the filter: "the same two, the lists of variable bounds and inputs handed over once and read by the first call of the run if the
    /// filter is Before"; "a run of no calls changes nothing and is still checked".
    fn sifts(&mut self, targets: impl Iterator<Item = Option<i64>>, lists: &Lists, places: usize) -> Outcome<Said> {
        self.clone().sift(None, lists)?;
        let mut after = *self;
        let mut values = Vec::new();
        for target in targets {
            let Some(value) = after.sift(target, lists)? else { break };
            values.push(value);
        }
        refuse_if(values.len() > places, ROOM)?;
        *self = after;
        Ok(Said::Ran(values))
    }

    /// `next` (no target) and `seek` of the filter.
    fn sift(&mut self, target: Option<i64>, lists: &Lists) -> Outcome<Option<i64>> {
        self.tried()?;
        refuse_if(lists.lower.len() > 16 || lists.upper.len() > 16 || lists.inputs.len() > 8, BOUNDS)?;
        self.ordered()?;
        let sieve = self.sieve();
        let mode = match sieve.mode {
            Mode::Before => {
                let lower = valued(&lists.lower, &lists.inputs, sieve.lower)?.into_iter().max();
                let upper = least(sieve.wins, &valued(&lists.upper, &lists.inputs, sieve.upper)?);
                // "the lower bound, if any, is first raised to the inclusive target where that is greater in the order".
                let raised = lower.map(|l| target.map_or(l, |t| l.max(Bound { value: t, exclusive: false })));
                match raised {
                    Some(l) => {
                        // "the scan seeks its value, and moves on once more if that bound is exclusive and exactly its value was found".
                        if self.seek(l.value) == Some(l.value) && l.exclusive {
                            self.next();
                        }
                    }
                    None => {
                        self.next();
                    }
                }
                self.judged(upper)
            }
            Mode::Within(kept) => {
                match target {
                    Some(t) => self.seek(t),
                    None => self.next(),
                };
                self.judged(kept)
            }
            Mode::After => Mode::After,
        };
        self.filter = Some(Sieve { mode, ..sieve });
        Ok(match mode {
            Mode::Within(_) => self.scan.value,
            _ => None,
        })
    }

    /// "If the scan is at an element within the upper bound, the filter is Within and keeps that upper bound; else After."
    fn judged(&self, upper: Option<Constant>) -> Mode {
        match self.scan.value {
            Some(v) if upper.is_none_or(|u| v < u.value || (v == u.value && !u.exclusive)) => Mode::Within(upper),
            _ => Mode::After,
        }
    }
}

/// "the upper the least of all upper bounds in that order"; in strict mode, "of equal upper values the exclusive one wins".
fn least(wins: Wins, bounds: &[Constant]) -> Option<Constant> {
    let value = bounds.iter().map(|b| b.value).min()?;
    let mut kinds = bounds.iter().filter(|b| b.value == value).map(|b| b.exclusive);
    let exclusive = match wins {
        Wins::Inclusive => kinds.all(|exclusive| exclusive),
        Wins::Exclusive => kinds.any(|exclusive| exclusive),
    };
    Some(Bound { value, exclusive })
}

fn said(answer: Option<i64>) -> Said {
    answer.map_or(Said::None, Said::Value)
}

/// The bounds of a list by their inputs' answers, after the folded one; 9 if an input that a bound names is not there or has no value.
fn valued(list: &[Variable], inputs: &[Option<i64>], folded: Option<Constant>) -> Outcome<Vec<Constant>> {
    let mut bounds: Vec<Constant> = folded.into_iter().collect();
    for b in list {
        let input = usize::try_from(b.value).ok().and_then(|i| inputs.get(i).copied().flatten());
        bounds.push(Bound { value: input.ok_or(INPUT)?, exclusive: b.exclusive });
    }
    Ok(bounds)
}

/// The batch listing: "the values that a fresh scan and a new filter give", window by window.
fn list(column: &Column, l: &Listing) -> Outcome<Said> {
    let length = column.check?;
    refuse_if(l.lower.len() > 16 || l.upper.len() > 16 || l.from.len() > 256 || l.from.len() != l.to.len(), BOUNDS)?;
    refuse_if(l.to.iter().any(|&end| end > length), WINDOW)?;
    refuse_if(l.from.iter().zip(&l.to).any(|(&s, &e)| !column.rises(s, e)), ORDER)?;
    let (lower, upper) = (l.lower.iter().copied().max(), least(l.wins, &l.upper));
    let spans: Vec<(u64, u64)> = l.from.iter().zip(&l.to).map(|(&s, &e)| span(column, s, e, lower, upper)).collect();
    let sum: u64 = spans.iter().map(|(first, past)| past - first).sum();
    refuse_if(sum > l.room as u64 || l.from.len() > l.counts, ROOM)?;
    let counts = spans.iter().map(|(first, past)| past - first).collect();
    let out = spans.iter().flat_map(|&(first, past)| (first..past).map(|i| column.at(i))).collect();
    Ok(Said::Listed { sum, counts, out })
}

/// The indices whose values a fresh scan over the window and a new filter give: in a window that rises they lie side by side, from the first that
/// meets the lower bound up to the first that fails the upper.
fn span(column: &Column, start: u64, end: u64, lower: Option<Constant>, upper: Option<Constant>) -> (u64, u64) {
    // The first index at which an element is past v, or not below it.
    let reach = |v: i64, past: bool| match v.checked_add(i64::from(past)) {
        Some(v) => column.first_from(start, end, v).unwrap_or(end.max(start)),
        None => end.max(start),
    };
    let first = lower.map_or(start, |b| reach(b.value, b.exclusive));
    let past = upper.map_or(end.max(start), |b| reach(b.value, !b.exclusive));
    (first, past.max(first))
}

/// A stored record, tried "4 bytes there (11), length range (13), bytes there (11), kind (12), multiple (13), room (10), then 2 and 3".
fn read(bytes: &[u8], places: [usize; 3]) -> Outcome<Said> {
    refuse_if(bytes.len() < 4, CUT)?;
    let length = number(&bytes[..4]) as usize;
    refuse_if(!(2..=57_346).contains(&length), SIZE)?;
    refuse_if(bytes.len() - 4 < length, CUT)?;
    refuse_if(number(&bytes[4..6]) != 1, KIND)?;
    refuse_if(!(length - 2).is_multiple_of(14), SIZE)?;
    let n = (length - 2) / 14;
    refuse_if(places.iter().any(|&p| p < n), ROOM)?;
    let mut runs = Runs::default();
    let mut end = 0;
    for run in bytes[6..4 + length].chunks(14) {
        end += number(&run[10..14]);
        runs.starts.push(number(&run[..8]) as i64);
        runs.steps.push(number(&run[8..10]) as u16 as i16);
        runs.ends.push(end);
    }
    check(&runs)?;
    Ok(Said::Read { used: 4 + length as u64, runs })
}

/// Little-endian.
fn number(bytes: &[u8]) -> u64 {
    bytes.iter().rev().fold(0, |n, &b| n * 256 + u64::from(b))
}

/// "Writing is the reverse, answers the bytes written and gives the same bytes back."
fn write(column: &Column, places: usize) -> Outcome<Said> {
    column.check?;
    let n = column.runs.ends.len();
    refuse_if(places < 6 + 14 * n, ROOM)?;
    let mut bytes = Vec::new();
    let mut put = |mut v: u64, count: usize| {
        for _ in 0..count {
            bytes.push((v % 256) as u8);
            v /= 256;
        }
    };
    put(2 + 14 * n as u64, 4);
    put(1, 2);
    for r in 0..n {
        put(column.runs.starts[r] as u64, 8);
        put(column.runs.steps[r] as u16 as u64, 2);
        put(column.runs.ends[r] - column.begin(r), 4);
    }
    Ok(Said::Written(bytes))
}

/// Document 02, request 1: "a run starts with one value and step 0; its second value joins if the difference has a step, which becomes the run's; later values
/// join while the difference equals it; otherwise a new run starts". Refused "1 where the rule needs over 4,096 runs or the list has over 4,294,967,295 values,
/// then 10".
fn build(values: &[i64], places: [usize; 3]) -> Outcome<Runs> {
    let mut runs: Vec<(i64, i16, u64)> = Vec::new();
    for (i, &value) in values.iter().enumerate() {
        let difference = i.checked_sub(1).and_then(|before| diff_step(values[before], value));
        match (runs.last_mut(), difference) {
            (Some((_, step, length)), Some(difference)) if *length == 1 || *step == difference => {
                *step = difference;
                *length += 1;
            }
            _ => runs.push((value, 0, 1)),
        }
    }
    refuse_if(runs.len() > MOST_RUNS || values.len() as u64 > LONGEST, SHAPE)?;
    refuse_if(places.iter().any(|&p| p < runs.len()), ROOM)?;
    Ok(Runs::of(&runs))
}
