//! Random columns, sound and damaged, up to every limit; long sequences on them; listings; records cut and damaged.
use crate::calls::*;
use crate::compare::{Bench, Tally, alone, by_hand, sequence};
use crate::{bitmaps, lists, model, profiles, totals};

/// SplitMix64: the same seed gives the same run.
pub struct Dice(pub u64);

impl Dice {
    pub fn word(&mut self) -> u64 {
        self.0 = self.0.wrapping_add(0x9E37_79B9_7F4A_7C15);
        let mut z = self.0;
        z = (z ^ (z >> 30)).wrapping_mul(0xBF58_476D_1CE4_E5B9);
        z = (z ^ (z >> 27)).wrapping_mul(0x94D0_49BB_1331_11EB);
        z ^ (z >> 31)
    }

    /// Below n.
    pub fn below(&mut self, n: u64) -> u64 {
        self.word() % n
    }

    /// One time in n.
    pub fn once_in(&mut self, n: u64) -> bool {
        self.below(n) == 0
    }

    pub fn pick<T: Copy>(&mut self, from: &[T]) -> T {
        from[self.below(from.len() as u64) as usize]
    }
}

const LONGEST: u64 = 4_294_967_295;

fn step(d: &mut Dice) -> i16 {
    if d.once_in(3) { d.pick(&[i16::MIN, i16::MIN + 1, -1, 0, 1, 2, i16::MAX - 1, i16::MAX]) } else { (d.below(9) as i16) - 2 }
}

/// A sound column. Most rise over long stretches; some rise as a whole, some not at all.
pub fn column(d: &mut Dice, most: u64) -> Runs {
    let n = match d.below(16) {
        0 => d.below(most + 1),
        1..=3 => d.below(most.min(64) + 1),
        _ => d.below(7),
    };
    let mut runs: Vec<(i64, i16, u64)> = Vec::new();
    let mut left = LONGEST;
    let long = d.once_in(3);
    let falls = d.pick(&[0, 0, 5, 40]);
    let mut at = match d.below(5) {
        0 => i64::MIN,
        1 => i64::MIN + d.below(1000) as i64,
        2 => d.word() as i64,
        _ => d.below(200) as i64 - 100,
    };
    for _ in 0..n {
        let mut step = step(d);
        if falls == 0 && step < 0 {
            step = -(step + 1);
        }
        let mut length = if step <= 0 && d.below(40) >= falls { 1 } else { 1 + d.below(6) };
        if long && d.once_in(3) {
            length = 1 + d.below(left.saturating_sub(n).max(1));
        }
        length = length.min(left.saturating_sub(n)).max(1);
        // Back into reach, if the run's end is beyond i64.
        let reach = |length: u64| i64::try_from(i128::from(at) + i128::from(step) * i128::from(length - 1));
        while reach(length).is_err() {
            length = 1 + (length - 1) / 2;
        }
        let last = reach(length).expect("tried");
        runs.push((at, step, length));
        left -= length;
        let gap = match d.below(24) {
            0 => d.word() as i64 >> d.below(40),
            1 => i64::MAX,
            2 => -(d.below(50) as i64) * i64::from(falls > 0),
            _ => 1 + d.below(9) as i64,
        };
        let next = last.checked_add(gap);
        if let Some(next) = next {
            at = next;
        } else if falls == 0 {
            break;
        } else {
            at = d.word() as i64;
        }
    }
    Runs::of(&runs)
}

/// A value worth asking for: an element, one beside it, a start, an extreme.
fn value(d: &mut Dice, c: &model::Column) -> i64 {
    let length = c.check().unwrap_or(0);
    let near = d.below(5) as i64 - 2;
    match d.below(12) {
        0 => d.word() as i64,
        1 => d.pick(&[i64::MIN, i64::MIN + 1, -1, 0, 1, i64::MAX - 1, i64::MAX]),
        2 => i64::MAX - d.below(20) as i64,
        3 if !c.runs.starts.is_empty() => d.pick(&c.runs.starts).saturating_add(near),
        _ if length == 0 => near,
        _ => c.at(d.below(length)).saturating_add(near),
    }
}

/// An index worth asking for: any, or beside the end of a run.
fn index(d: &mut Dice, c: &model::Column) -> u64 {
    let length = c.check().unwrap_or(0);
    match d.below(12) {
        0 => d.pick(&[0, 1, length, length.saturating_sub(1)]),
        1..=5 if !c.runs.ends.is_empty() => d.pick(&c.runs.ends).saturating_sub(d.below(3)),
        _ => d.below(length + 1),
    }
}

/// A window; now and then one that is refused, empty or beyond.
pub fn window(d: &mut Dice, c: &model::Column) -> (u64, u64) {
    let length = c.check().unwrap_or(0);
    let (a, b) = (index(d, c), index(d, c));
    match d.below(20) {
        0 => (d.pick(&[length + 1, u64::MAX, a]), b),
        1 => (a, length + d.pick(&[1, 2, u64::MAX - length])),
        2 => (a.max(b), a.min(b)),
        3..=5 => (a, length),
        // A stretch of few runs, which rises more often.
        6..=13 => (a, a.saturating_add(d.below(40)).min(length)),
        _ => (a.min(b), a.max(b)),
    }
}

fn bounds<V>(d: &mut Dice, most: u64, mut one: impl FnMut(&mut Dice) -> V) -> Vec<Bound<V>> {
    let n = if d.once_in(60) { 17 } else { d.below(most + 1) };
    (0..n).map(|_| Bound { value: one(d), exclusive: d.once_in(2) }).collect()
}

fn lists(d: &mut Dice, values: &[i64]) -> Lists {
    if d.once_in(3) {
        return Lists::default();
    }
    let n = if d.once_in(60) { 9 } else { d.below(5) };
    let gap = d.once_in(6);
    let inputs = (0..n).map(|_| if gap && d.once_in(3) { None } else { Some(d.pick(values)) }).collect();
    let named = if d.once_in(40) { d.pick(&[n + 1, u64::MAX]) } else { n };
    let name = |d: &mut Dice| if named == 0 { 0 } else { d.below(named) };
    let most = if n == 0 && !d.once_in(20) { 0 } else { 3 };
    let (lower, upper) = (bounds(d, most, name), bounds(d, most, name));
    // Lists of no bounds stay so where there is no input to name.
    Lists { lower, upper, inputs }
}

/// A call on a scan or filter.
fn call(d: &mut Dice, c: &model::Column, values: &[i64], filter: bool) -> Call {
    match d.below(if filter { 26 } else { 14 }) {
        0..=4 => Call::Next,
        5..=8 => Call::Seek(value(d, c)),
        9 => Call::Reset,
        10 => Call::Current,
        11 => Call::Pos,
        12 | 13 => {
            let (start, end) = window(d, c);
            Call::Narrow(start, end)
        }
        14..=19 => Call::FilterNext(lists(d, values)),
        20..=22 => Call::FilterSeek(value(d, c), lists(d, values)),
        23 => Call::FilterReset,
        24 => Call::FilterCurrent,
        _ => Call::FilterNew(Wins::Inclusive, bounds(d, 2, |d| value(d, c)), bounds(d, 2, |d| value(d, c))),
    }
}

/// Runs of calls in place of some single ones, of the scan and of the filter, on the same column: of nexts, mostly few, and of seeks.
pub fn with_runs(d: &mut Dice, c: &model::Column, calls: &mut [Call]) {
    let most = (2 * c.runs.ends.len() as u64 + 9).min(400);
    for call in calls {
        let n = match d.below(8) {
            0 => 0,
            1 => d.below(most),
            _ => d.below(9),
        };
        if d.once_in(2) {
            continue;
        }
        *call = match call {
            Call::Next => Call::NextRun(n as usize),
            Call::Seek(_) => {
                let (targets, places) = targets(d, c, n);
                Call::SeekRun(targets, places)
            }
            Call::FilterNext(lists) => Call::FilterNextRun(std::mem::take(lists), n as usize),
            Call::FilterSeek(_, lists) => {
                let (targets, places) = targets(d, c, n);
                Call::FilterSeekRun(targets, std::mem::take(lists), places)
            }
            _ => continue,
        }
    }
}

/// So many targets, rising or not, and room for their answers that is right, long or short.
fn targets(d: &mut Dice, c: &model::Column, n: u64) -> (Vec<i64>, usize) {
    let mut targets: Vec<i64> = (0..n).map(|_| value(d, c)).collect();
    if !d.once_in(4) {
        targets.sort_unstable();
    }
    let places = targets.len().saturating_add_signed(d.pick(&[0, 0, 0, 0, 3, -1, -3, -1000]));
    (targets, places)
}

/// Values that inputs may have.
pub fn values(d: &mut Dice, c: &model::Column) -> Vec<i64> {
    let mut values: Vec<i64> = (0..6).map(|_| value(d, c)).collect();
    values.sort_unstable();
    values.dedup();
    values
}

/// The calls of one random sequence. Kinds: `scan` has scan calls alone, `filter` no scan call once there is a filter, `mixed` all.
pub fn calls_of(d: &mut Dice, c: &model::Column, values: &[i64], count: u64, kind: &str) -> Vec<Call> {
    let mut calls = vec![Call::New];
    if !d.once_in(3) {
        let (start, end) = window(d, c);
        calls.push(Call::Narrow(start, end));
    }
    for _ in 0..d.below(count) {
        calls.push(call(d, c, values, false));
    }
    if kind != "scan" {
        // One that is not refused, so that there is a filter.
        let some = |d: &mut Dice| (0..d.below(3)).map(|_| Bound { value: value(d, c), exclusive: d.once_in(2) }).collect();
        calls.push(Call::FilterNew(Wins::Inclusive, some(d), some(d)));
        for _ in 0..d.below(count) {
            let next = call(d, c, values, true);
            if kind == "mixed" || next.is_filter() {
                calls.push(next);
            }
        }
    }
    calls
}

/// A bound of the list once more, as the other kind: so there is a tie.
fn tied<V: Copy>(d: &mut Dice, list: &mut Vec<Bound<V>>) {
    if !list.is_empty() && list.len() < 16 {
        let Bound { value, exclusive } = d.pick(list);
        list.insert(d.below(list.len() as u64 + 1) as usize, Bound { value, exclusive: !exclusive });
    }
}

/// Ties in the upper bounds of every second call, and in the lower bounds of some. With `strict` the filters are made in that mode.
pub fn with_ties(d: &mut Dice, calls: &mut [Call], strict: bool) {
    for call in calls {
        let (lower, upper) = (d.once_in(4), d.once_in(2));
        match call {
            Call::FilterNew(wins, lows, ups) => {
                if strict {
                    *wins = Wins::Exclusive;
                }
                if lower {
                    tied(d, lows);
                }
                if upper {
                    tied(d, ups);
                }
            }
            call => {
                let Some(l) = call.lists_mut() else { continue };
                if lower {
                    tied(d, &mut l.lower);
                }
                if upper {
                    tied(d, &mut l.upper);
                }
            }
        }
    }
}

/// Check, places, elements and steps.
pub fn column_calls(d: &mut Dice, c: &model::Column) -> Vec<Call> {
    let mut calls = vec![Call::Check];
    for _ in 0..4 {
        let i = index(d, c).saturating_add(d.pick(&[0, 0, 0, 1]));
        let (p, q) = (value(d, c), value(d, c));
        let r = p.wrapping_add(d.pick(&[32767, 32768, -32768, -32769, 0, 5]));
        calls.extend([Call::Place(i), Call::Element(i), Call::Diff(p, q), Call::Diff(p, r)]);
    }
    calls
}

/// Breaks the arrays in one place, perhaps so that they stay sound.
pub fn damage(d: &mut Dice, runs: &mut Runs) {
    let n = runs.ends.len().max(1) as u64;
    let r = d.below(n) as usize;
    match d.below(9) {
        0 => drop(runs.starts.pop()),
        1 => drop(runs.steps.pop()),
        2 => drop(runs.ends.pop()),
        3 => runs.starts.push(0),
        4 if r < runs.ends.len() => runs.ends[r] = d.pick(&[0, 1, LONGEST, LONGEST + 1, u64::MAX]),
        5 if r < runs.ends.len() => runs.ends[r] = runs.ends[r.saturating_sub(1)],
        6 if r < runs.starts.len() => runs.starts[r] = d.pick(&[i64::MIN, i64::MAX, i64::MAX - 3]),
        7 if r < runs.steps.len() => runs.steps[r] = d.pick(&[i16::MIN, i16::MAX]),
        _ => {
            let many = d.pick(&[4095, 4096, 4097, 4100]);
            *runs = Runs::of(&vec![(7, 1, 1); many]);
        }
    }
}

/// One random column with all that is asked of it.
pub fn round(d: &mut Dice, most: u64, tally: &mut Tally) {
    let mut runs = column(d, most);
    let broken = d.once_in(12);
    if broken {
        damage(d, &mut runs);
    }
    let c = model::Column::new(&runs);
    let values = values(d, &c);
    let mut bench = Bench::new(&c, &values);
    let big = runs.ends.len() > 200;
    bench.look_every = if big { 0 } else { 97 };
    for call in column_calls(d, &c) {
        alone(&mut bench, &call, tally);
    }
    for _ in 0..if broken { 1 } else { 12 } {
        let kind = d.pick(&["scan", "mixed"]);
        let mut calls = calls_of(d, &c, &values, if big { 30 } else { 60 }, kind);
        if d.once_in(2) {
            with_runs(d, &c, &mut calls);
        }
        sequence(&mut bench, &calls, tally);
        if tally.full() {
            return;
        }
    }
    for strict in [true, true, true, false] {
        let mut calls = calls_of(d, &c, &values, if big { 20 } else { 40 }, "mixed");
        with_ties(d, &mut calls, strict);
        if d.once_in(2) {
            with_runs(d, &c, &mut calls);
        }
        sequence(&mut bench, &calls, tally);
        if tally.full() {
            return;
        }
    }
    let (scan, filter, mut calls) = hand_calls(d, &c, &values);
    with_runs(d, &c, &mut calls);
    by_hand(&mut bench, scan, filter, &calls, tally);
    for wins in [Wins::Inclusive, Wins::Inclusive, Wins::Exclusive] {
        let listing = listing(d, &c, wins);
        alone(&mut bench, &listing, tally);
    }
    records(d, &mut bench, runs.ends.len(), tally);
    lists::round(d, &mut bench, tally);
    bitmaps::round(d, &mut bench, tally);
    profiles::round(d, &mut bench, tally);
    totals::round(d, &mut bench, tally);
}

/// A scan put together by hand, mostly one that no call gives, a filter's mode and state, and calls to start from them.
pub fn hand_calls(d: &mut Dice, c: &model::Column, values: &[i64]) -> (Scan, (Wins, Mode), Vec<Call>) {
    let (start, end) = window(d, c);
    let state = match d.below(6) {
        0 => State::Fresh,
        1 => State::Ended,
        2 => State::At(index(d, c)),
        3 => State::At(start.saturating_sub(1)),
        4 => State::At(end),
        _ => State::At(start),
    };
    let mut calls: Vec<Call> = (0..8).map(|_| call(d, c, values, true)).filter(|c| !matches!(c, Call::FilterNew(..))).collect();
    with_ties(d, &mut calls, false);
    let mode = match d.below(8) {
        0 => Mode::After,
        1 => Mode::Within(None),
        2 | 3 => Mode::Within(Some(Bound { value: value(d, c), exclusive: d.once_in(2) })),
        _ => Mode::Before,
    };
    let element = match state {
        State::At(i) if c.check().is_ok_and(|length| i < length) => Some(c.at(i)),
        State::At(_) => Some(value(d, c)),
        _ => None,
    };
    // Now and then one that is missing, is another, or does not belong there.
    let value = match d.below(8) {
        0 => None,
        1 | 2 => Some(value(d, c)),
        _ => element,
    };
    (Scan { start, end, state, value }, (d.pick(&[Wins::Inclusive, Wins::Exclusive]), mode), calls)
}

/// A listing of windows that mostly rise, with room that is short, right or long; what it needs is asked of the model.
pub fn listing(d: &mut Dice, c: &model::Column, wins: Wins) -> Call {
    let n = match d.below(20) {
        0 => d.pick(&[255, 256, 257]),
        _ => d.below(5),
    };
    let mut l = Listing { wins, ..Listing::default() };
    for _ in 0..n {
        for _ in 0..20 {
            let (start, end) = window(d, c);
            let fits = c.check().is_ok_and(|length| end <= length && c.rises(start, end) && end.saturating_sub(start) < 3000);
            if fits || d.once_in(400) {
                l.from.push(start);
                l.to.push(end);
                break;
            }
        }
    }
    if d.once_in(30) {
        l.from.pop();
    }
    l.lower = bounds(d, 2, |d| value(d, c));
    l.upper = bounds(d, 2, |d| value(d, c));
    if d.once_in(3) {
        tied(d, &mut l.upper);
    }
    (l.room, l.counts) = (1_000_000, l.from.len());
    let needed = match model::Session::new(c).call(&Call::List(l.clone())) {
        Said::Listed { sum, .. } => sum as usize,
        _ => 40,
    };
    l.room = d.pick(&[needed, needed + 5, needed.saturating_sub(1), 0]).max(if d.once_in(4) { 0 } else { needed });
    let windows = l.from.len();
    l.counts = if d.once_in(8) { windows.saturating_sub(1) } else { windows + d.below(3) as usize };
    Call::List(l)
}

/// The column's record: written into outputs of several sizes; read whole, cut and damaged at every byte where it is short, at some where it is long.
fn records(d: &mut Dice, bench: &mut Bench, n: usize, tally: &mut Tally) {
    let need = 6 + 14 * n;
    for room in [need, need + 3, need.saturating_sub(1), 0] {
        alone(bench, &Call::Write(room), tally);
    }
    let Said::Written(bytes) = model::Session::new(bench.column).call(&Call::Write(need)) else {
        return;
    };
    for places in [[n; 3], [n + 1, n + 2, n], [n, n.saturating_sub(1), n], [n.saturating_sub(1), n, n], [n, n, n.saturating_sub(1)]] {
        alone(bench, &Call::Read(bytes.clone(), places), tally);
    }
    let every = 1 + bytes.len() / 80;
    for at in (0..bytes.len()).step_by(every) {
        alone(bench, &Call::Read(bytes[..at].to_vec(), [n; 3]), tally);
        let mut broken = bytes.clone();
        broken[at] = d.pick(&[broken[at] ^ 1, broken[at] ^ 128, 0, 255, d.0 as u8]);
        broken.extend(&[9; 30][..d.below(30) as usize]);
        alone(bench, &Call::Read(broken, [n + 3, n + 3, n + 3]), tally);
    }
}

/// A record to read: the column's own, or cut, damaged, or with bytes after it.
pub fn record(d: &mut Dice, c: &model::Column) -> Call {
    let n = c.runs.ends.len();
    let mut bytes = match model::Session::new(c).call(&Call::Write(6 + 14 * n)) {
        Said::Written(bytes) => bytes,
        _ => vec![2, 0, 0, 0, 1, 0],
    };
    match d.below(4) {
        0 => bytes.truncate(d.below(bytes.len() as u64 + 1) as usize),
        1 => {
            let at = d.below(bytes.len() as u64) as usize;
            bytes[at] = d.word() as u8;
        }
        2 => bytes.extend(&[9; 30][..d.below(30) as usize]),
        _ => {}
    }
    let mut place = || n.saturating_add_signed(d.pick(&[0, 0, 0, 1, 3, -1]));
    Call::Read(bytes, [place(), place(), place()])
}
