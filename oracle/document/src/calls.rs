//! Calls, answers and states, as document 01 speaks of them. What the three sides share is these words and nothing else.

/// The three lent arrays, also bad ones.
#[derive(Clone, Debug, Default, PartialEq, Eq)]
pub struct Runs {
    pub starts: Vec<i64>,
    pub ends: Vec<u64>,
    pub steps: Vec<i16>,
}

/// A bound, or a variable bound, whose number is an input's. The order of the derive is document 01's: by value, then inclusive before exclusive.
#[derive(Clone, Copy, Debug, PartialEq, Eq, PartialOrd, Ord)]
pub struct Bound<V> {
    pub value: V,
    pub exclusive: bool,
}

pub type Constant = Bound<i64>;
pub type Variable = Bound<u64>;

#[derive(Clone, Copy, Debug, PartialEq, Eq)]
pub enum State {
    Fresh,
    At(u64),
    Ended,
}

/// A window, a state, and what the scan carries.
#[derive(Clone, Copy, Debug, PartialEq, Eq)]
pub struct Scan {
    pub start: u64,
    pub end: u64,
    pub state: State,
    pub value: Option<i64>,
}

#[derive(Clone, Copy, Debug, PartialEq, Eq)]
pub enum Mode {
    Before,
    Within(Option<Constant>),
    After,
}

/// Which of two upper bounds of one value wins: the mode of request 4, which is chosen when a filter is made. A corpus calls them `crate` and `strict`.
#[derive(Clone, Copy, Debug, Default, PartialEq, Eq)]
pub enum Wins {
    #[default]
    Inclusive,
    Exclusive,
}

/// Variable bounds and the inputs' answers, handed over with a call.
#[derive(Clone, Debug, Default, PartialEq, Eq)]
pub struct Lists {
    pub lower: Vec<Variable>,
    pub upper: Vec<Variable>,
    pub inputs: Vec<Option<i64>>,
}

/// A batch listing's windows, mode and bounds, and the places of its outputs.
#[derive(Clone, Debug, Default, PartialEq, Eq)]
pub struct Listing {
    pub from: Vec<u64>,
    pub to: Vec<u64>,
    pub wins: Wins,
    pub lower: Vec<Constant>,
    pub upper: Vec<Constant>,
    pub room: usize,
    pub counts: usize,
}

/// A listing by profile: the records of a window that carry the field, or (`carry` false) those that don't, and the places of the output.
#[derive(Clone, Copy, Debug, PartialEq, Eq)]
pub struct Fields {
    pub profile: u8,
    pub count: u64,
    pub start: u64,
    pub end: u64,
    pub carry: bool,
    pub places: usize,
}

#[derive(Clone, Debug, PartialEq, Eq)]
pub enum Call {
    New,
    Next,
    Seek(i64),
    Current,
    Pos,
    Reset,
    Narrow(u64, u64),
    /// As many nexts as the output has places, in one call.
    NextRun(usize),
    /// A seek of each target in turn, in one call, and the places of the output.
    SeekRun(Vec<i64>, usize),
    FilterNew(Wins, Vec<Constant>, Vec<Constant>),
    FilterNext(Lists),
    FilterSeek(i64, Lists),
    FilterCurrent,
    FilterReset,
    /// Runs of the filter's calls, with the lists handed over once, and the places of the output last.
    FilterNextRun(Lists, usize),
    FilterSeekRun(Vec<i64>, Lists, usize),
    Check,
    Place(u64),
    Element(u64),
    Diff(i64, i64),
    Set(Scan),
    FilterSet(Wins, Mode),
    List(Listing),
    Read(Vec<u8>, [usize; 3]),
    Write(usize),
    /// The values, and the places of the three arrays.
    Build(Vec<i64>, [usize; 3]),
    /// The bytes of a bitmap, the record count, and the places of the three arrays.
    Import(Vec<u8>, u64, [usize; 3]),
    /// The record count, and the bytes of the output.
    Export(u64, usize),
    /// Profile, record count and record.
    Carries(u8, u64, u64),
    Profile(Fields),
    /// The windows' starts and ends, and the places of the five outputs: counts, leasts, greatests, highs, lows.
    Totals(Vec<u64>, Vec<u64>, [usize; 5]),
}

/// Of a window, or of all: the number of elements, the least and the greatest, and the exact sum as high and low.
#[derive(Clone, Copy, Debug, PartialEq, Eq)]
pub struct Total {
    pub count: u64,
    pub edges: Option<(i64, i64)>,
    pub high: i64,
    pub low: u64,
}

/// What a call said. The seven with arrays hold the answer's own places; the places beyond are looked at where the call is made (`Filled::whole`).
#[derive(Clone, Debug, PartialEq, Eq)]
pub enum Said {
    None,
    Value(i64),
    Index(u64),
    Ok,
    Refused(u32),
    Length(u64),
    Place(u64, u64, u64),
    /// Whether a record carries the field.
    Carries(bool),
    /// Values in a row: those of a run of calls, or the records of a window.
    Ran(Vec<i64>),
    Listed { sum: u64, counts: Vec<u64>, out: Vec<i64> },
    Read { used: u64, runs: Runs },
    Written(Vec<u8>),
    Built(Runs),
    Imported { ones: u64, runs: Runs },
    Totalled { all: Total, windows: Vec<Total> },
}

/// What the places of an output hold before a call.
pub const OUT: i64 = -77;
pub const COUNT: u64 = 99;
pub const PLACE: i16 = 7;
pub const BYTE: u8 = 0xAA;
pub const RECORD: u64 = u64::MAX - 76;

impl Runs {
    /// A column from (start, step, length) a run.
    pub fn of(runs: &[(i64, i16, u64)]) -> Runs {
        let mut end = 0;
        let mut made = Runs::default();
        for &(start, step, length) in runs {
            end += length;
            made.starts.push(start);
            made.ends.push(end);
            made.steps.push(step);
        }
        made
    }
}

impl Scan {
    /// Before the window's first element.
    pub fn fresh(start: u64, end: u64) -> Scan {
        Scan { start, end, state: State::Fresh, value: None }
    }
}

impl Call {
    pub fn is_filter(&self) -> bool {
        matches!(self, Call::FilterNew(..) | Call::FilterCurrent | Call::FilterReset) || self.lists().is_some()
    }

    /// The variable bounds and inputs that a filter's call is handed.
    pub fn lists(&self) -> Option<&Lists> {
        match self {
            Call::FilterNext(l) | Call::FilterSeek(_, l) | Call::FilterNextRun(l, _) | Call::FilterSeekRun(_, l, _) => Some(l),
            _ => None,
        }
    }

    /// The same, to be changed.
    pub fn lists_mut(&mut self) -> Option<&mut Lists> {
        match self {
            Call::FilterNext(l) | Call::FilterSeek(_, l) | Call::FilterNextRun(l, _) | Call::FilterSeekRun(_, l, _) => Some(l),
            _ => None,
        }
    }
}
