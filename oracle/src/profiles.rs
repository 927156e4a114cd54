//! Columns read by profile: all small ones with the counts around their last element, every record and windows; those at the limits; and random ones.
use crate::bitmaps::moved;
use crate::calls::*;
use crate::compare::{Bench, Tally, alone};
use crate::exhaustive::{Level, columns};
use crate::model;
use crate::random::Dice;

const MOST: u64 = 4_294_967_295;
/// Small columns that rise, fall, meet and lie apart, with and without gaps in their runs.
const SMALL: Level = Level { lengths: 3, steps: &[-1, 0, 1, 2, 3], gaps: &[-1, 0, 1, 2, 5], runs: 2, depth: 0, every: 1 };
/// Every profile that is one, and some that are none.
const PROFILES: [u8; 5] = [1, 2, 0, 3, 255];

/// Every small column: every record, and of every so-manyth every window, else some; and the limits.
pub fn everything(every: usize, tally: &mut Tally) {
    for (i, mut runs) in columns(SMALL).into_iter().enumerate() {
        // The first start is 5; from 2, from 0, and from below.
        for down in [3, 2, 1] {
            runs.starts.iter_mut().for_each(|start| *start -= down);
            let column = model::Column::new(&runs);
            let top = column.check().ok().and_then(|length| u64::try_from(column.at(length.checked_sub(1)?)).ok()).map_or(0, |last| last + 1);
            for count in [0, top.saturating_sub(1), top, top + 1, top + 4] {
                small(&column, count, i % every == 0, tally);
            }
        }
    }
    limits(tally);
}

/// One small column, with every record up to the count and beyond, and windows; where it is refused, a few of them.
fn small(column: &model::Column, count: u64, all: bool, tally: &mut Tally) {
    let bench = &mut Bench::new(column, &[]);
    for profile in PROFILES {
        let refused = matches!(alone(bench, &Call::Carries(profile, count, 0), tally), Said::Refused(n) if n != model::INDEX);
        for record in if refused { count..=count } else { 1..=count + 1 } {
            alone(bench, &Call::Carries(profile, count, record), tally);
        }
        let some = [(0, count), (0, count + 1), (0, 0), (count, 0), (3, count.saturating_sub(2)), (u64::MAX, count)];
        for &(start, end) in &some[..if refused { 2 } else { some.len() }] {
            both(bench, profile, count, start, end, tally);
        }
        if all && !refused {
            for (start, end) in (0..=count).flat_map(|end| (0..=count).map(move |start| (start, end))) {
                both(bench, profile, count, start, end, tally);
            }
        }
    }
}

/// Both lists of a window, into outputs that are long enough, just right, longer and a place short.
fn both(bench: &mut Bench, profile: u8, count: u64, start: u64, end: u64, tally: &mut Tally) {
    for carry in [true, false] {
        let mut asked = |places: usize| alone(bench, &Call::Profile(Fields { profile, count, start, end, carry, places }), tally);
        let window = end.saturating_sub(start).min(10_000) as usize;
        let Said::Ran(records) = asked(window) else {
            asked(0);
            continue;
        };
        for places in [records.len(), records.len() + 2].into_iter().chain(records.len().checked_sub(1)) {
            asked(places);
        }
    }
}

/// The most records and one more; runs of nearly all of them, with windows at either end and around; 4,096 runs and one more; the longest step.
fn limits(tally: &mut Tally) {
    let wide = [(0, 1, MOST), (0, 1, MOST - 1), (1, 1, MOST - 2), (1, 2, MOST / 2), (0, 32_767, 131_077), (MOST as i64 - 1, -5, 1), (MOST as i64, 0, 1)];
    for run in wide {
        let runs = Runs::of(&[run]);
        let column = model::Column::new(&runs);
        let bench = &mut Bench::new(&column, &[]);
        for count in [MOST - 2, MOST - 1, MOST, MOST + 1, u64::MAX] {
            for profile in PROFILES {
                for record in [0, 1, 2, 32_767, MOST / 2, MOST - 2, MOST - 1, MOST, u64::MAX] {
                    alone(bench, &Call::Carries(profile, count, record), tally);
                }
                for (start, end) in [(0, 9), (MOST - 70_000, MOST - 1), (MOST - 9, MOST), (MOST - 2, MOST + 1), (32_700, 66_000), (MOST, 5), (4, u64::MAX)] {
                    both(bench, profile, count, start, end, tally);
                }
            }
        }
    }
    for many in [4095, 4096, 4097] {
        let runs = Runs::of(&(0..many).map(|r| (4 * r, 1, 2)).collect::<Vec<_>>());
        let column = model::Column::new(&runs);
        let bench = &mut Bench::new(&column, &[]);
        for (start, end) in [(0, 40), (16_000, 16_390), (7, 9)] {
            both(bench, 1, 16_390, start, end, tally);
            both(bench, 2, 16_390, start, end, tally);
        }
    }
}

/// A record worth asking for: an element of the column, one beside it, any below the count, one at its edge.
fn record(d: &mut Dice, column: &model::Column, count: u64) -> u64 {
    let length = column.check().unwrap_or(0);
    match d.below(8) {
        0 => d.pick(&[0, count, count.saturating_sub(1), count.saturating_add(1), u64::MAX]),
        1 | 2 => d.below(count.max(1)),
        _ if length == 0 => d.below(9),
        _ => u64::try_from(column.at(d.below(length)).saturating_add(d.below(5) as i64 - 2)).unwrap_or(0),
    }
}

/// A window of few records around such a one; now and then one that is empty, or ends above the count.
fn window(d: &mut Dice, column: &model::Column, count: u64) -> (u64, u64) {
    let long = d.pick(&[3, 20, 200, 200, 3000]);
    let start = record(d, column, count).saturating_sub(d.below(long));
    let end = match d.below(12) {
        0 => d.below(start.saturating_add(1)),
        1 => count.saturating_add(d.below(3)).min(start.saturating_add(5000)),
        _ => start.saturating_add(d.below(long)).min(count),
    };
    (start, end)
}

/// A profile, mostly one.
fn profile(d: &mut Dice) -> u8 {
    if d.once_in(15) { d.word() as u8 } else { d.pick(&[1, 2]) }
}

/// A listing with room that is right, longer or short.
pub fn random(d: &mut Dice, column: &model::Column, count: u64) -> Call {
    let (start, end) = window(d, column, count);
    let fields = Fields { profile: profile(d), count, start, end, carry: d.once_in(2), places: 10_000 };
    let needed = match model::Session::new(column).call(&Call::Profile(fields)) {
        Said::Ran(records) => records.len(),
        _ => 4,
    };
    Call::Profile(Fields { places: needed.saturating_add_signed(d.pick(&[0, 0, 0, 3, -1])), ..fields })
}

/// Whether a record, mostly one that there is, carries the field.
pub fn one(d: &mut Dice, column: &model::Column, count: u64) -> Call {
    Call::Carries(profile(d), count, record(d, column, count))
}

/// A random column as it is, and moved to small numbers.
pub fn round(d: &mut Dice, bench: &mut Bench, tally: &mut Tally) {
    let count = d.pick(&[0, 9, MOST, MOST, MOST + 1, u64::MAX]);
    asked(d, bench, count, tally);
    let (moved, counts) = moved(d, bench.column.runs);
    let column = model::Column::new(&moved);
    let bench = &mut Bench::new(&column, &[]);
    for count in counts.into_iter().chain([MOST, MOST + 1]) {
        asked(d, bench, count, tally);
    }
}

fn asked(d: &mut Dice, bench: &mut Bench, count: u64, tally: &mut Tally) {
    for _ in 0..4 {
        let call = one(d, bench.column, count);
        alone(bench, &call, tally);
    }
    let (start, end) = window(d, bench.column, count);
    both(bench, profile(d), count, start, end, tally);
    let call = random(d, bench.column, count);
    alone(bench, &call, tally);
}
