//! Plain lists, to be built into runs: all short ones of some values, lists at the limits, and random ones.
use crate::calls::*;
use crate::compare::{Bench, Tally, alone};
use crate::model;
use crate::random::Dice;

/// Values whose differences are steps at either edge, or just are none.
const NEAR: [i64; 7] = [0, 1, 2, 4, 32_767, 32_768, -32_768];
/// Values whose differences are no i64 at all, or just are, and some half way to an edge.
const FAR: [i64; 8] = [i64::MIN, i64::MIN + 1, -(1 << 62), -1, 0, 1 << 62, i64::MAX - 1, i64::MAX];

/// Every list of up to so many values, and the limits.
pub fn everything(most: usize, tally: &mut Tally) {
    let none = Runs::default();
    let column = model::Column::new(&none);
    let mut bench = Bench::new(&column, &[]);
    for values in [&NEAR[..], &FAR[..]] {
        let mut lists = vec![vec![]];
        for _ in 0..=most {
            for list in &lists {
                build(&mut bench, list, tally);
            }
            let longer = |list: &Vec<i64>| values.iter().map(|v| [&list[..], &[*v]].concat()).collect::<Vec<_>>();
            lists = lists.iter().flat_map(longer).collect();
        }
    }
    for runs in [4095, 4096, 4097, 5000] {
        for length in [1, 2, 3] {
            build(&mut bench, &many(runs, length), tally);
        }
    }
    build(&mut bench, &(0..100_000).collect::<Vec<_>>(), tally);
}

/// A list that the rule makes so many runs of, each of so many values: from run to run there is no step.
fn many(runs: i64, length: i64) -> Vec<i64> {
    (0..runs).flat_map(|r| (0..length).map(move |k| r * 70_000 + k * (r % 5))).collect()
}

/// The list into arrays that are just right, that are longer, and of which one is a place short; 4,096 places where the rule needs more.
fn build(bench: &mut Bench, list: &[i64], tally: &mut Tally) {
    let mut asked = |places: [usize; 3]| alone(bench, &Call::Build(list.to_vec(), places), tally);
    let n = match asked([list.len(); 3]) {
        Said::Built(runs) => runs.starts.len(),
        _ => 4096,
    };
    for places in rooms(n) {
        asked(places);
    }
}

/// Places of three arrays for so many runs: just right, longer, one short in each array, none.
pub fn rooms(n: usize) -> Vec<[usize; 3]> {
    let mut rooms = vec![[n; 3], [n + 2, n, n + 1]];
    if n > 0 {
        rooms.extend([[n - 1, n, n], [n, n - 1, n], [n, n, n - 1], [0; 3]]);
    }
    rooms
}

/// A list in which runs come and go: steps that stay, change and end, values again, and now and then one from anywhere.
pub fn random(d: &mut Dice) -> Vec<i64> {
    let most = d.pick(&[3, 9, 60, 6000]);
    let near = d.below(4) > 0;
    let mut list: Vec<i64> = Vec::new();
    let mut step = 1;
    for _ in 0..d.below(most + 1) {
        let last = list.last().copied().unwrap_or(0);
        step = match d.below(if near { 40 } else { 8 }) {
            0 => d.pick(&[0, 1, -1, 7]),
            1 => d.pick(&[32_767, 32_768, -32_768, -32_769]),
            2 => d.word() as i64 >> d.below(60),
            _ => step,
        };
        let extreme = d.once_in(50).then(|| d.pick(&FAR));
        list.push(extreme.or(last.checked_add(step)).unwrap_or(0));
    }
    list
}

/// A random list, and a column's own elements, as far as they are few.
pub fn round(d: &mut Dice, bench: &mut Bench, tally: &mut Tally) {
    build(bench, &random(d), tally);
    let few = bench.column.check().unwrap_or(0).min(500);
    let own: Vec<i64> = (0..few).map(|i| bench.column.at(i)).collect();
    build(bench, &own, tally);
}
