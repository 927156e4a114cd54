//! Small columns, all of them: every window, every short sequence of calls, every filter with bounds around the elements.
use crate::calls::*;
use crate::compare::{Bench, Tally, alone, by_hand, sequence, tree};
use crate::model;

const BOTH: [Wins; 2] = [Wins::Inclusive, Wins::Exclusive];

/// How far to go.
#[derive(Clone, Copy)]
pub struct Level {
    pub lengths: u64,
    pub steps: &'static [i16],
    /// What a run's start is above the last element of the run before.
    pub gaps: &'static [i64],
    pub runs: usize,
    pub depth: usize,
    /// Only every so many columns.
    pub every: usize,
}

/// Up to two runs, deep; three runs, less so; filters.
pub const QUICK: [Level; 3] = [
    Level { lengths: 3, steps: &[-2, -1, 0, 1, 2], gaps: &[-1, 0, 1, 2], runs: 2, depth: 3, every: 3 },
    Level { lengths: 2, steps: &[-1, 0, 1, 3], gaps: &[-1, 0, 1, 3], runs: 3, depth: 2, every: 1 },
    Level { lengths: 2, steps: &[-1, 0, 1, 3], gaps: &[-1, 1, 2], runs: 2, depth: 3, every: 3 },
];
pub const LONG: [Level; 3] = [
    Level { lengths: 3, steps: &[-2, -1, 0, 1, 2], gaps: &[-2, -1, 0, 1, 2, 4], runs: 2, depth: 4, every: 1 },
    Level { lengths: 3, steps: &[-2, -1, 0, 1, 2], gaps: &[-1, 0, 1, 3], runs: 3, depth: 3, every: 9 },
    Level { lengths: 2, steps: &[-1, 0, 1, 3], gaps: &[-1, 1, 2], runs: 3, depth: 3, every: 13 },
];

/// Every column of the level, from no runs up.
pub fn columns(level: Level) -> Vec<Runs> {
    let mut found = vec![vec![]];
    let mut last: Vec<Vec<(i64, i16, u64)>> = vec![vec![]];
    for _ in 0..level.runs {
        let mut longer = Vec::new();
        for runs in &last {
            let begin = runs.last().map_or(vec![5], |&(start, step, length): &(i64, i16, u64)| {
                let end = start + i64::from(step) * (length as i64 - 1);
                level.gaps.iter().map(|g| end + g).collect()
            });
            for start in begin {
                for &step in level.steps {
                    for length in 1..=level.lengths {
                        let mut more = runs.clone();
                        more.push((start, step, length));
                        longer.push(more);
                    }
                }
            }
        }
        found.extend(longer.iter().cloned());
        last = longer;
    }
    found.iter().step_by(level.every).map(|runs| Runs::of(runs)).collect()
}

/// The values in a window and those beside them.
fn around(column: &model::Column, start: u64, end: u64) -> Vec<i64> {
    let mut values: Vec<i64> = (start..end).flat_map(|i| [-1, 0, 1].map(|d| column.at(i) + d)).collect();
    values.sort_unstable();
    values.dedup();
    values
}

/// Column calls, and every window with every sequence of scan calls.
pub fn scans(runs: &Runs, depth: usize, tally: &mut Tally) {
    let column = model::Column::new(runs);
    let length = column.check().expect("the small columns are sound");
    let mut bench = Bench::new(&column, &[]);
    bench.look_every = 61;
    alone(&mut bench, &Call::Check, tally);
    for i in (0..length + 3).chain([u64::MAX]) {
        alone(&mut bench, &Call::Place(i), tally);
        alone(&mut bench, &Call::Element(i), tally);
    }
    for end in 0..=length {
        for start in (0..=length + 1).chain([u64::MAX]) {
            let opening = [Call::New, Call::Narrow(start, end), Call::Next, Call::Reset, Call::Seek(5), Call::Narrow(0, length + 1), Call::New];
            sequence(&mut bench, &opening, tally);
            let mut alphabet = vec![Call::Next, Call::Reset, Call::Narrow(0, length), Call::Narrow(end.saturating_sub(1), end)];
            let empty = start >= end;
            // A window that does not rise refuses every seek: one target is enough there.
            let targets = if empty || !column.rises(start, end) { vec![5] } else { around(&column, start, end) };
            alphabet.extend(targets.into_iter().map(Call::Seek));
            tree(&mut bench, (start, end), &[], &alphabet, if empty { depth.min(2) } else { depth }, tally);
            // Runs where the window begins or ends with the column; random columns have the others.
            if start == 0 || end == length {
                runs_of_calls(&mut bench, start, end, tally);
            }
            if tally.full() {
                return;
            }
        }
    }
    scans_by_hand(&mut bench, length, tally);
}

/// Runs of calls in a window, from fresh, from its first and its last element and from past it: of nexts, none, few and one more than there are; of seeks of
/// every two of three values around the elements, rising or not, and of all values, into room that is right, longer or one short.
fn runs_of_calls(bench: &mut Bench, start: u64, end: u64, tally: &mut Tally) {
    let elements = end.saturating_sub(start) as usize;
    let nexts = [0, 1, 2, elements, elements + 1].map(Call::NextRun);
    let rises = start < end && bench.column.rises(start, end);
    let all = if rises { around(bench.column, start, end) } else { vec![5] };
    let few: Vec<i64> = all.iter().copied().step_by(1 + all.len() / 3).collect();
    let pairs = few.iter().flat_map(|&a| few.iter().map(move |&b| Call::SeekRun(vec![a, b], 2)));
    let rooms = [all.len() + 2, all.len(), all.len().saturating_sub(1), 0].map(|places| Call::SeekRun(all.clone(), places));
    let calls: Vec<Call> = nexts.into_iter().chain(pairs).chain(rooms).chain([Call::SeekRun(vec![], 0)]).collect();
    for before in [0, 1, elements, elements + 1] {
        tree(bench, (start, end), &[Call::NextRun(before)], &calls, 1, tally);
    }
}

/// Scans that no call gives: ends above the length, indices outside the window, a value that is missing, is another, or does not belong there.
fn scans_by_hand(bench: &mut Bench, length: u64, tally: &mut Tally) {
    let lists = Lists::default();
    let calls = [
        Call::Next,
        Call::Seek(5),
        Call::Current,
        Call::Pos,
        Call::Reset,
        Call::Narrow(0, length),
        Call::Narrow(0, length + 1),
        Call::NextRun(0),
        Call::NextRun(3),
        Call::SeekRun(vec![], 0),
        Call::SeekRun(vec![5, 6], 1),
        Call::FilterNext(lists.clone()),
        Call::FilterSeek(5, lists.clone()),
        Call::FilterNextRun(lists.clone(), 0),
        Call::FilterNextRun(lists.clone(), 3),
        Call::FilterSeekRun(vec![], lists.clone(), 0),
        Call::FilterSeekRun(vec![5, 6], lists, 1),
        Call::FilterCurrent,
        Call::FilterReset,
    ];
    for end in [0, length, length + 1, u64::MAX] {
        for start in [0, 1, length, u64::MAX] {
            for state in [State::Fresh, State::Ended, State::At(0), State::At(1), State::At(length), State::At(u64::MAX)] {
                let element = match state {
                    State::At(i) if i < length => Some(bench.column.at(i)),
                    _ => None,
                };
                // Values that do not belong there are tried in windows that end with the column.
                let others = [element.map_or(Some(5), |_| None), Some(element.unwrap_or(5) + 1)];
                let others = if end == length { &others[..] } else { &[] };
                for value in std::iter::once(&element).chain(others).copied() {
                    by_hand(bench, Scan { start, end, state, value }, (Wins::Inclusive, Mode::Before), &calls, tally);
                }
            }
        }
    }
}

/// Lists at their limits, each by itself and in every state of a filter: 16 bounds pass and 17 are refused, 8 inputs pass and 9 are refused.
pub fn limits(tally: &mut Tally) {
    let runs = Runs::of(&[(10, 5, 4), (30, 0, 1), (31, -3, 1), (40, 100, 3)]);
    let column = model::Column::new(&runs);
    let mut bench = Bench::new(&column, &[15]);
    for n in [15, 16, 17] {
        let (named, given) = (vec![Bound { value: 0, exclusive: false }; n], vec![Bound { value: 15, exclusive: false }; n]);
        for (lower, upper) in [(true, false), (false, true), (true, true)] {
            for inputs in [7, 8, 9] {
                let list = |there: bool| if there { named.clone() } else { vec![] };
                let bounds = |there: bool| if there { given.clone() } else { vec![] };
                let lists = Lists { lower: list(lower), upper: list(upper), inputs: vec![Some(15); inputs] };
                for wins in BOTH {
                    let made = Call::FilterNew(wins, bounds(lower), bounds(upper));
                    let mut calls = vec![Call::New, Call::FilterNew(Wins::Inclusive, vec![], vec![]), made];
                    for target in [15, 300] {
                        calls.extend([Call::FilterNext(lists.clone()), Call::FilterSeek(target, lists.clone())]);
                    }
                    calls.extend([Call::FilterReset, Call::FilterNext(Lists::default()), Call::FilterNext(lists.clone())]);
                    for _ in 0..2 {
                        calls.extend([Call::FilterNextRun(lists.clone(), 2), Call::FilterSeekRun(vec![31], lists.clone(), 1)]);
                        calls.push(Call::FilterReset);
                    }
                    calls.extend([Call::FilterSeekRun(vec![], lists.clone(), 0), Call::FilterNextRun(lists.clone(), 0)]);
                    sequence(&mut bench, &calls, tally);
                }
            }
        }
    }
}

/// Starts from one edge of i64 to the other.
const FAR: [i64; 8] = [i64::MIN, i64::MIN + 2, -3, -1, 0, 2, i64::MAX - 6, i64::MAX - 1];

/// Columns whose starts lie as far apart as i64 goes: where the Rust's subtraction overflows, and where it just does not.
pub fn far_columns(every: usize) -> Vec<Runs> {
    let mut found: Vec<Vec<(i64, i16, u64)>> = vec![vec![]];
    for start in FAR {
        let mut more = Vec::new();
        for runs in found.iter().filter(|r| r.len() < 3) {
            for step in [i16::MIN, -1, 0, 1, 3] {
                for length in [1, 2] {
                    let mut longer = runs.clone();
                    longer.push((start, step, length));
                    more.push(longer);
                }
            }
        }
        found.extend(more);
    }
    // All of up to two runs, and some of three.
    let kept = found.iter().enumerate().filter(|(i, runs)| runs.len() < 3 || i % every == 0);
    kept.map(|(_, runs)| Runs::of(runs)).filter(|runs| model::Column::new(runs).check().is_ok()).collect()
}

/// Seeks around every distance that an i64 just holds, from every state, through the scan and through a filter's lower bound.
pub fn far_seeks(runs: &Runs, tally: &mut Tally) {
    let column = model::Column::new(runs);
    let length = column.check().expect("only sound ones are kept");
    let mut bench = Bench::new(&column, &[]);
    let mut targets = vec![i64::MIN, -1, i64::MAX];
    for start in &runs.starts {
        let edge = i128::from(*start) + i128::from(i64::MAX);
        targets.extend([-1, 0, 1].iter().filter_map(|d| i64::try_from(edge + d).ok()));
    }
    targets.sort_unstable();
    targets.dedup();
    let mut alphabet = vec![Call::Next];
    alphabet.extend(targets.iter().copied().map(Call::Seek));
    for end in 1..=length {
        for start in (0..end).filter(|&s| column.rises(s, end)) {
            tree(&mut bench, (start, end), &[], &alphabet, 2, tally);
            for &value in &targets {
                let lower = vec![Bound { value, exclusive: value % 2 == 0 }];
                let before = [Call::FilterNew(Wins::Inclusive, lower, vec![])];
                let none = Lists::default();
                let calls = [Call::FilterNext(none.clone()), Call::FilterSeek(-1, none.clone()), Call::FilterSeek(i64::MAX, none)];
                tree(&mut bench, (start, end), &before, &calls, 2, tally);
            }
            if tally.full() {
                return;
            }
        }
    }
}

/// None, and each value inclusive and exclusive.
fn bounds<V: Copy>(values: &[V]) -> Vec<Vec<Bound<V>>> {
    let one = |exclusive| values.iter().map(move |&value| vec![Bound { value, exclusive }]);
    std::iter::once(vec![]).chain(one(false)).chain(one(true)).collect()
}

/// Filters with constant and with variable bounds, over fresh, mid-way and ended scans.
pub fn filters(runs: &Runs, depth: usize, tally: &mut Tally) {
    let column = model::Column::new(runs);
    let length = column.check().expect("the small columns are sound");
    for (start, end) in [(0, length), (1, length), (0, length.saturating_sub(1)), (1, 1)] {
        if !column.rises(start, end) || end > length {
            continue;
        }
        let mut values = around(&column, start, end);
        // The first, the last and some between.
        while values.len() > 5 {
            values.remove(values.len() / 2);
        }
        if values.is_empty() {
            values.push(5);
        }
        let mut bench = Bench::new(&column, &values);
        bench.look_every = 61;
        let walked = [0, 1, (end.max(start) - start) as usize + 1];
        for nexts in walked {
            let stood = vec![Call::Next; nexts];
            constants(&mut bench, (start, end), &stood, &values, depth, tally);
            variables(&mut bench, (start, end), &stood, &values, depth, tally);
            if tally.full() {
                return;
            }
        }
    }
}

fn constants(bench: &mut Bench, window: (u64, u64), stood: &[Call], values: &[i64], depth: usize, tally: &mut Tally) {
    let none = Lists::default();
    let (low, high) = (values[0], values[values.len() - 1]);
    let alphabet = [
        Call::FilterNext(none.clone()),
        Call::FilterSeek(values[values.len() / 2], none.clone()),
        Call::FilterSeek(high, none.clone()),
        Call::FilterReset,
        Call::Reset,
        Call::FilterSeek(low, none),
    ];
    for lower in bounds(values) {
        for upper in bounds(values) {
            let mut before = stood.to_vec();
            before.push(Call::FilterNew(Wins::Inclusive, lower.clone(), upper));
            tree(bench, window, &before, &alphabet, depth, tally);
            runs_of_sifting(bench, window, &before, values, &Lists::default(), tally);
        }
    }
    // The same value both ways, and lists in every order, in both modes.
    let v = values[values.len() / 2];
    let two = |a: bool, b: bool| vec![Bound { value: v, exclusive: a }, Bound { value: v, exclusive: b }];
    for list in [two(false, true), two(true, false), two(true, true)] {
        for pair in [(list.clone(), vec![]), (vec![], list.clone()), (list.clone(), list.clone())] {
            for wins in BOTH {
                let mut before = stood.to_vec();
                before.push(Call::FilterNew(wins, pair.0.clone(), pair.1.clone()));
                tree(bench, window, &before, &alphabet, depth, tally);
                runs_of_sifting(bench, window, &before, values, &Lists::default(), tally);
            }
        }
    }
}

fn variables(bench: &mut Bench, window: (u64, u64), stood: &[Call], values: &[i64], depth: usize, tally: &mut Tally) {
    let (low, mid, high) = (values[0], values[values.len() / 2], values[values.len() - 1]);
    let mut lists = Vec::new();
    for lower in bounds(&[0, 1]) {
        for upper in bounds(&[0, 2]) {
            for inputs in [[Some(low), Some(mid), Some(high)], [Some(mid), Some(high), Some(mid)], [Some(high), None, Some(low)]] {
                lists.push(Lists { lower: lower.clone(), upper: upper.clone(), inputs: inputs.to_vec() });
            }
        }
    }
    let folded = [Bound { value: mid, exclusive: false }, Bound { value: mid, exclusive: true }];
    for (i, one) in lists.iter().enumerate() {
        let other = &lists[(i * 7 + 3) % lists.len()];
        let missing = Lists { lower: vec![Bound { value: 3, exclusive: false }], ..one.clone() };
        let alphabet = [
            Call::FilterNext(one.clone()),
            Call::FilterSeek(mid, one.clone()),
            Call::FilterNext(other.clone()),
            Call::FilterSeek(high, other.clone()),
            Call::FilterReset,
            Call::FilterNext(missing),
        ];
        for (lower, upper) in [(vec![], vec![]), (vec![folded[i % 2]], vec![]), (vec![], vec![folded[i % 2]])] {
            let mut before = stood.to_vec();
            before.push(Call::FilterNew(Wins::Inclusive, lower, upper));
            tree(bench, window, &before, &alphabet, depth, tally);
        }
        // A constant bound beside a variable one, in the other mode.
        let mut before = stood.to_vec();
        before.push(Call::FilterNew(Wins::Exclusive, vec![], vec![folded[i % 2]]));
        tree(bench, window, &before, &alphabet, depth.min(2), tally);
        runs_of_sifting(bench, window, &before, values, one, tally);
    }
}

/// Runs of a filter's calls with these lists, from where it stands after `before`, from the first call after that and from past the end: of nexts, none, one,
/// two and more than there are; of seeks of every two of three values, rising or not, and of all values, into room that is right, longer or one short.
fn runs_of_sifting(bench: &mut Bench, window: (u64, u64), before: &[Call], values: &[i64], lists: &Lists, tally: &mut Tally) {
    let few = [values[0], values[values.len() / 2], values[values.len() - 1]];
    let seeks = |targets: Vec<i64>, places| Call::FilterSeekRun(targets, lists.clone(), places);
    let nexts = [0, 1, 2, 9].map(|places| Call::FilterNextRun(lists.clone(), places));
    let pairs = few.iter().flat_map(|&a| few.iter().map(move |&b| seeks(vec![a, b], 2)));
    let rooms = [values.len() + 2, values.len() - 1, 0].map(|places| seeks(values.to_vec(), places));
    let calls: Vec<Call> = nexts.iter().cloned().chain(pairs).chain(rooms).chain([seeks(vec![], 0)]).collect();
    for first in [None, Some(&nexts[1]), Some(&nexts[3])] {
        let before: Vec<Call> = before.iter().chain(first).cloned().collect();
        tree(bench, window, &before, &calls, 1, tally);
    }
}

/// Batch listings of small columns: every pair of windows, bounds around the elements, outputs that are short by one, just right and longer.
pub fn listings(runs: &Runs, tally: &mut Tally) {
    let column = model::Column::new(runs);
    let length = column.check().expect("the small columns are sound");
    let mut bench = Bench::new(&column, &[]);
    let mut windows = vec![(u64::MAX, 0), (0, length + 1)];
    windows.extend((0..=length).flat_map(|e| (0..=e).map(move |s| (s, e))));
    let values = around(&column, 0, length);
    let some: Vec<i64> = values.iter().copied().step_by(3).collect();
    for (i, &one) in windows.iter().enumerate() {
        for &two in windows.iter().step_by(2) {
            for lower in bounds(&some) {
                let upper = bounds(&some).swap_remove(i % (2 * some.len() + 1));
                for (room, counts) in [(2 * length as usize, 2), (length as usize, 3), (1, 2), (40, 1)] {
                    let (from, to) = (vec![one.0, two.0], vec![one.1, two.1]);
                    let listing = Listing { from, to, lower: lower.clone(), upper: upper.clone(), room, counts, ..Listing::default() };
                    alone(&mut bench, &Call::List(listing), tally);
                }
                // The last of the upper bounds both ways, in both modes.
                let both = upper.iter().flat_map(|b| [*b, Bound { value: b.value, exclusive: !b.exclusive }]).collect::<Vec<_>>();
                for wins in BOTH {
                    let (from, to) = (vec![one.0, two.0], vec![one.1, two.1]);
                    let listing = Listing { from, to, wins, lower: lower.clone(), upper: both.clone(), room: 2 * length as usize, counts: 2 };
                    alone(&mut bench, &Call::List(listing), tally);
                }
            }
        }
    }
}
