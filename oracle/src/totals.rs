//! Totals: all small columns with every window and pair of windows, columns at the edges of i64 and of a length, sums at the edges of a high, and random ones.
use crate::calls::*;
use crate::compare::{Bench, Tally, alone};
use crate::exhaustive::{Level, columns};
use crate::model;
use crate::random::{Dice, window};

/// Small columns that rise, fall, stay and lie apart.
const SMALL: Level = Level { lengths: 4, steps: &[-3, -1, 0, 2], gaps: &[-9, 0, 1], runs: 2, depth: 0, every: 1 };
const LONGEST: u64 = 4_294_967_295;
const HALF: u64 = 2_147_483_648;
/// What half of the longest column has, of the greatest i64: with `LONGEST` once, the sum is the greatest that has a high.
const EDGE: [(i64, i16, u64); 5] = [(i64::MAX, 0, HALF), (LONGEST as i64, 0, 1), (1, 0, 1), (-1, 0, 1), (i64::MIN, 0, HALF - 10)];

type Windows = Vec<(u64, u64)>;

/// Every window of small columns alone, each with each other of some, and the limits.
pub fn everything(every: usize, tally: &mut Tally) {
    for (i, runs) in columns(SMALL).iter().enumerate() {
        let column = model::Column::new(runs);
        let mut bench = Bench::new(&column, &[]);
        let length = column.check().expect("a sound one");
        let all: Windows = (0..=length + 1).flat_map(|start| (0..=length + 1).map(move |end| (start, end))).collect();
        for &one in &all {
            ask(&mut bench, &[one], tally);
        }
        if i.is_multiple_of(every) {
            for &one in &all {
                all.iter().for_each(|&other| ask(&mut bench, &[one, other], tally));
            }
        }
    }
    extremes(tally);
    sums(tally);
    counts(tally);
}

/// Runs as long as a column may be, from either edge of i64, level, rising and falling; windows of all, of all but an end, of one element and of none.
fn extremes(tally: &mut Tally) {
    for step in [i16::MIN, -1, 0, 1, 3, i16::MAX] {
        let way = i64::from(step) * (LONGEST as i64 - 1);
        for start in [i64::MIN, i64::MIN - way.min(0), -1 - way / 2, -1, 0, 1, i64::MAX - way.max(0), i64::MAX] {
            for length in [1, 2, 3, HALF, LONGEST - 1, LONGEST] {
                let runs = Runs::of(&[(start, step, length)]);
                let column = model::Column::new(&runs);
                let mut bench = Bench::new(&column, &[]);
                let ends = [
                    (0, length), (1, length), (0, length - 1), (length - 1, length),
                    (length / 2, length), (length, length), (length, 0), (u64::MAX, length),
                ];
                ends.iter().for_each(|&one| ask(&mut bench, &[one], tally));
                ask(&mut bench, &ends, tally);
                for times in [1, 2, 3, 256, 257] {
                    ask(&mut bench, &vec![(0, length); times], tally);
                }
                ask(&mut bench, &[(0, length + 1)], tally);
            }
        }
    }
}

/// Sums on either side of the greatest and of the least that has a high; sums that leave the range on the way and come back, in several orders.
fn sums(tally: &mut Tally) {
    let runs = Runs::of(&EDGE);
    let column = model::Column::new(&runs);
    let mut bench = Bench::new(&column, &[]);
    let length = column.check().expect("a sound one");
    let (most, level, one, less, least) = ((0, HALF), (HALF, HALF + 1), (HALF + 1, HALF + 2), (HALF + 2, HALF + 3), (HALF + 3, length));
    let twenty = (HALF + 3, HALF + 23);
    let greatest = vec![most, most, level];
    let lowest = vec![least, least, twenty];
    for edge in [greatest, lowest] {
        let lists: [&[(u64, u64)]; 8] = [&[], &[one], &[less], &[one, less], &[one, one, less], &[most, least], &[most; 4], &[least; 4]];
        for more in lists {
            ask(&mut bench, &[&edge[..], more].concat(), tally);
            ask(&mut bench, &[more, &edge[..]].concat(), tally);
        }
    }
    for times in 0..=128 {
        ask(&mut bench, &[vec![most; times], vec![least; times]].concat(), tally);
        ask(&mut bench, &[vec![most; times + 1], vec![least; times]].concat(), tally);
    }
}

/// 0 to 300 windows, and lists of windows that differ in length.
fn counts(tally: &mut Tally) {
    let runs = Runs::of(&[(5, 3, 4), (-8, -1, 5), (100, 0, 3)]);
    let column = model::Column::new(&runs);
    let mut bench = Bench::new(&column, &[]);
    for n in [0, 1, 2, 255, 256, 257, 300] {
        let windows: Windows = (0..n).map(|i| (i % 14, i * 7 % 13)).collect();
        ask(&mut bench, &windows, tally);
        let (from, to): (Vec<u64>, Vec<u64>) = windows.into_iter().unzip();
        for (short, long) in [(&from[..from.len().saturating_sub(1)], &to[..]), (&from[..], &to[..to.len().saturating_sub(1)]), (&[], &to[..])] {
            alone(&mut bench, &Call::Totals(short.to_vec(), long.to_vec(), [n as usize; 5]), tally);
        }
    }
}

/// Into outputs that are right, longer, and one short in each.
fn ask(bench: &mut Bench, windows: &[(u64, u64)], tally: &mut Tally) {
    let (from, to): (Vec<u64>, Vec<u64>) = windows.iter().copied().unzip();
    let n = from.len();
    let mut rooms = vec![[n; 5], [n + 3, n, n + 1, n, n + 2]];
    if let Some(short) = n.checked_sub(1) {
        let one = tally.calls as usize % 5;
        rooms.push(std::array::from_fn(|i| if i == one { short } else { n }));
    }
    for places in rooms {
        alone(bench, &Call::Totals(from.clone(), to.clone(), places), tally);
    }
}

/// Windows of a column, some of them several times, with outputs that are right, longer or short.
pub fn random(d: &mut Dice, c: &model::Column) -> Call {
    let n = if d.once_in(20) { d.pick(&[255, 256, 257]) } else { d.below(6) };
    let (mut from, mut to): (Vec<u64>, Vec<u64>) = (0..n).map(|_| window(d, c)).unzip();
    if let Ok(length) = c.check() {
        // A window that is refused, in most of the lists in which there are many, would hide the rest.
        let most = if d.once_in(6) { u64::MAX } else { length };
        to.iter_mut().for_each(|end| *end = most.min(*end));
    }
    if d.once_in(3) && !from.is_empty() {
        let again = d.below(from.len() as u64) as usize;
        from.push(from[again]);
        to.push(to[again]);
    }
    if d.once_in(30) {
        from.pop();
    }
    let n = from.len();
    let one = d.below(5) as usize;
    let short = d.once_in(8);
    Call::Totals(from, to, std::array::from_fn(|i| if short && i == one { n.saturating_sub(1) } else { n + d.pick(&[0, 0, 2]) }))
}

/// Some of a column that is there already.
pub fn round(d: &mut Dice, bench: &mut Bench, tally: &mut Tally) {
    for _ in 0..4 {
        let call = random(d, bench.column);
        alone(bench, &call, tally);
    }
}
