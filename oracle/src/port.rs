//! The library as it is shipped: the archive, called through `loftsplice::raw` of bindings/rust.
use crate::calls::*;
use crate::model::Sieve;
use loftsplice::raw;

mod outputs;

pub const PRESENT: bool = true;

/// Whether the archive has this call (features `listing` and `record`).
pub fn has(call: &Call) -> bool {
    match call {
        Call::List(_) => cfg!(feature = "listing"),
        Call::Read(..) | Call::Write(_) => cfg!(feature = "record"),
        _ => true,
    }
}

/// A scan, or the filter that holds it.
#[derive(Clone, Copy, Debug)]
pub struct Session {
    scan: raw::Scan,
    filter: Option<raw::Filter>,
}

/// Lists in the form in which they cross, kept from call to call.
#[derive(Default)]
pub struct Desk {
    numbers: [Vec<i64>; 2],
    inputs: [Vec<u64>; 2],
    kinds: [Vec<u8>; 2],
    values: Vec<i64>,
    found: Vec<u8>,
}

impl Desk {
    fn constants(&mut self, at: usize, bounds: &[Constant]) {
        self.numbers[at].clear();
        self.numbers[at].extend(bounds.iter().map(|b| b.value));
        self.kinds[at].clear();
        self.kinds[at].extend(bounds.iter().map(|b| kind(b.exclusive)));
    }

    fn variables(&mut self, lists: &Lists) -> raw::Variables<'_> {
        for (at, list) in [&lists.lower, &lists.upper].into_iter().enumerate() {
            self.inputs[at].clear();
            self.inputs[at].extend(list.iter().map(|b| b.value));
            self.kinds[at].clear();
            self.kinds[at].extend(list.iter().map(|b| kind(b.exclusive)));
        }
        self.values.clear();
        self.values.extend(lists.inputs.iter().map(|v| v.unwrap_or(0)));
        self.found.clear();
        self.found.extend(lists.inputs.iter().map(|v| u8::from(v.is_some())));
        raw::Variables {
            lower_inputs: &self.inputs[0],
            lower_kinds: &self.kinds[0],
            upper_inputs: &self.inputs[1],
            upper_kinds: &self.kinds[1],
            input_values: &self.values,
            input_found: &self.found,
        }
    }
}

fn number(wins: Wins) -> u32 {
    match wins {
        Wins::Inclusive => raw::INCLUSIVE_WINS,
        Wins::Exclusive => raw::EXCLUSIVE_WINS,
    }
}

fn kind(exclusive: bool) -> u8 {
    (if exclusive { raw::EXCLUSIVE } else { raw::INCLUSIVE }) as u8
}

impl Session {
    /// A scan with this window, state and value, whatever they are.
    pub fn over(scan: Scan) -> Session {
        let (state, index) = match scan.state {
            State::Fresh => (raw::FRESH, 0),
            State::At(i) => (raw::AT, i),
            State::Ended => (raw::ENDED, 0),
        };
        let (value, found) = (scan.value.unwrap_or(0), u32::from(scan.value.is_some()));
        Session { scan: raw::Scan { start: scan.start, end: scan.end, index, value, state, found }, filter: None }
    }

    /// With a filter without constant bounds, in this mode and state.
    pub fn open(self, wins: Wins, mode: Mode) -> Session {
        let free = raw::Limit { value: 0, kind: raw::FREE };
        let (state, kept) = match mode {
            Mode::Before => (raw::BEFORE, free),
            Mode::Within(None) => (raw::WITHIN, free),
            Mode::Within(Some(b)) => (raw::WITHIN, raw::Limit { value: b.value, kind: u32::from(kind(b.exclusive)) }),
            Mode::After => (raw::AFTER, free),
        };
        let filter = raw::Filter { scan: self.scan, lower: free, upper: free, kept, state, mode: number(wins) };
        Session { filter: Some(filter), ..self }
    }

    pub fn scan(&self) -> Scan {
        let s = self.filter.map_or(self.scan, |f| f.scan);
        let state = match s.state {
            raw::FRESH => State::Fresh,
            raw::AT => State::At(s.index),
            raw::ENDED => State::Ended,
            other => panic!("a scan's state {other}"),
        };
        assert!(s.state == raw::AT || s.index == 0, "an index where the scan is at none");
        let value = match s.found {
            0 => None,
            1 => Some(s.value),
            other => panic!("a scan's found {other}"),
        };
        assert!(s.found == 1 || s.value == 0, "a value where the scan carries none");
        Scan { start: s.start, end: s.end, state, value }
    }

    pub fn sieve(&self) -> Option<Sieve> {
        self.filter.map(|f| {
            let kept = limit(f.kept);
            assert!(f.state == raw::WITHIN || kept.is_none(), "a kept bound where the filter is not within");
            let mode = match f.state {
                raw::BEFORE => Mode::Before,
                raw::WITHIN => Mode::Within(kept),
                raw::AFTER => Mode::After,
                other => panic!("a filter's state {other}"),
            };
            let wins = match f.mode {
                raw::INCLUSIVE_WINS => Wins::Inclusive,
                raw::EXCLUSIVE_WINS => Wins::Exclusive,
                other => panic!("a filter's mode {other}"),
            };
            Sieve { lower: limit(f.lower), upper: limit(f.upper), wins, mode }
        })
    }

    pub fn call(&mut self, runs: &Runs, call: &Call, desk: &mut Desk) -> Said {
        let (starts, ends, steps) = (&runs.starts[..], &runs.ends[..], &runs.steps[..]);
        let scan = self.filter.map_or(self.scan, |f| f.scan);
        match call {
            Call::New => {
                let made = raw::scan_new(starts, ends, steps);
                if made.refusal == 0 {
                    *self = Session { scan: made.scan, filter: None };
                    return Said::Ok;
                }
                Said::Refused(made.refusal)
            }
            Call::Next => self.moved(raw::scan_next(scan, starts, ends, steps)),
            Call::Seek(target) => self.moved(raw::scan_seek(scan, starts, ends, steps, *target)),
            Call::Current => answer(raw::scan_current(scan)),
            Call::Pos => {
                let p = raw::scan_pos(scan, starts, ends, steps);
                assert!(p.found == 1 || p.index == 0, "an index where there is none");
                match (p.refusal, p.found) {
                    (0, 1) => Said::Index(p.index),
                    (0, 0) => Said::None,
                    (n, 0) => Said::Refused(n),
                    odd => panic!("a position {odd:?}"),
                }
            }
            Call::Reset => done(self.moved(raw::scan_reset(scan, starts, ends, steps))),
            Call::NextRun(places) => outputs::ran(*places, |out| {
                let r = raw::scan_next_run(scan, starts, ends, steps, out);
                self.stands(r.scan);
                (r.refusal, r.count)
            }),
            Call::SeekRun(targets, places) => outputs::ran(*places, |out| {
                let r = raw::scan_seek_run(scan, starts, ends, steps, targets, out);
                self.stands(r.scan);
                (r.refusal, r.count)
            }),
            Call::Narrow(start, end) => done(self.moved(raw::scan_narrow(scan, starts, ends, steps, *start, *end))),
            Call::FilterNew(wins, lower, upper) => {
                desk.constants(0, lower);
                desk.constants(1, upper);
                let made = raw::filter_new(scan, number(*wins), &desk.numbers[0], &desk.kinds[0], &desk.numbers[1], &desk.kinds[1]);
                if made.refusal == 0 {
                    self.filter = Some(made.filter);
                    return Said::Ok;
                }
                Said::Refused(made.refusal)
            }
            Call::FilterNext(lists) => {
                let f = self.held();
                self.sifted(raw::filter_next(f, starts, ends, steps, desk.variables(lists)))
            }
            Call::FilterSeek(target, lists) => {
                let f = self.held();
                self.sifted(raw::filter_seek(f, starts, ends, steps, *target, desk.variables(lists)))
            }
            Call::FilterNextRun(lists, places) => outputs::ran(*places, |out| {
                let r = raw::filter_next_run(self.held(), starts, ends, steps, desk.variables(lists), out);
                self.filter = Some(r.filter);
                (r.refusal, r.count)
            }),
            Call::FilterSeekRun(targets, lists, places) => outputs::ran(*places, |out| {
                let r = raw::filter_seek_run(self.held(), starts, ends, steps, targets, desk.variables(lists), out);
                self.filter = Some(r.filter);
                (r.refusal, r.count)
            }),
            Call::FilterCurrent => answer(raw::filter_current(self.held())),
            Call::FilterReset => {
                let r = raw::filter_reset(self.held());
                self.filter = Some(r.filter);
                if r.refusal == 0 { Said::Ok } else { Said::Refused(r.refusal) }
            }
            Call::Set(scan) => {
                *self = Session::over(*scan);
                Said::Ok
            }
            Call::FilterSet(wins, mode) => {
                *self = self.open(*wins, *mode);
                Said::Ok
            }
            Call::Check => checked(starts, ends, steps),
            Call::Place(i) => {
                let p = raw::place(starts, ends, steps, *i);
                if p.refusal == 0 { Said::Place(p.run, p.offset, p.follows) } else { Said::Refused(p.refusal) }
            }
            Call::Element(i) => answer(raw::get(starts, ends, steps, *i)),
            Call::Diff(previous, current) => {
                let d = raw::diff_step(*previous, *current);
                if d.found == 1 { Said::Value(i64::from(d.step)) } else { Said::None }
            }
            Call::Build(values, places) => outputs::built(values, *places),
            Call::Import(bytes, count, places) => outputs::imported(bytes, *count, *places),
            Call::Export(count, places) => outputs::exported(runs, *count, *places),
            Call::Carries(profile, count, record) => carries(raw::carries(u32::from(*profile), *count, starts, ends, steps, *record)),
            Call::Profile(fields) => outputs::records(runs, fields),
            Call::Totals(from, to, places) => outputs::totalled(runs, from, to, *places),
            #[cfg(feature = "listing")]
            Call::List(l) => outputs::listed(runs, l, desk),
            #[cfg(feature = "record")]
            Call::Read(bytes, places) => outputs::read(bytes, *places),
            #[cfg(feature = "record")]
            Call::Write(places) => outputs::written(runs, *places),
            #[cfg(not(all(feature = "listing", feature = "record")))]
            _ => unreachable!("`has` is asked first"),
        }
    }

    fn held(&self) -> raw::Filter {
        self.filter.expect("a filter was made")
    }

    fn stands(&mut self, scan: raw::Scan) {
        match &mut self.filter {
            Some(f) => f.scan = scan,
            None => self.scan = scan,
        }
    }

    fn moved(&mut self, m: raw::Moved) -> Said {
        self.stands(m.scan);
        answer(m.answer)
    }

    fn sifted(&mut self, s: raw::Sifted) -> Said {
        self.filter = Some(s.filter);
        answer(s.answer)
    }
}

/// `check`, `len` and `is_empty` in one: they must say the same.
fn checked(starts: &[i64], ends: &[u64], steps: &[i16]) -> Said {
    let check = raw::check(starts, ends, steps);
    let len = raw::len(starts, ends, steps);
    let empty = raw::is_empty(starts, ends, steps);
    assert!(check == len.refusal && check == empty.refusal, "check {check}, {len:?}, {empty:?}");
    assert!(check != 0 || (empty.empty == 1) == (len.length == 0), "{len:?}, {empty:?}");
    if check == 0 { Said::Length(len.length) } else { Said::Refused(check) }
}

fn limit(l: raw::Limit) -> Option<Constant> {
    match l.kind {
        raw::FREE => None,
        raw::INCLUSIVE => Some(Bound { value: l.value, exclusive: false }),
        raw::EXCLUSIVE => Some(Bound { value: l.value, exclusive: true }),
        other => panic!("a bound's kind {other}"),
    }
}

fn answer(a: raw::Answer) -> Said {
    assert!(a.found == 1 || a.value == 0, "a value where there is none");
    match (a.refusal, a.found) {
        (0, 1) => Said::Value(a.value),
        (0, 0) => Said::None,
        (n, 0) => Said::Refused(n),
        odd => panic!("an answer {odd:?}"),
    }
}

fn carries(c: raw::Carried) -> Said {
    match (c.refusal, c.carries) {
        (0, 0) => Said::Carries(false),
        (0, 1) => Said::Carries(true),
        (n, 0) => Said::Refused(n),
        odd => panic!("an answer {odd:?}"),
    }
}

/// `narrow` and `reset` answer none.
fn done(said: Said) -> Said {
    match said {
        Said::None => Said::Ok,
        other => other,
    }
}
