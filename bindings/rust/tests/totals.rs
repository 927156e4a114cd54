//! Exact totals: beside adding the elements one by one, at the edges of the numbers, and what a refusal leaves.
use std::ops::Range;

use loftsplice::{raw, Column, Refusal, Total, Totals};

mod random;

use random::{each_kind, target, Dice};

/// The elements of a window, one by one.
fn by_hand(elements: &[i64], window: &Range<u64>) -> Total {
    let place = |index: u64| usize::try_from(index).unwrap();
    let mut total = Total::default();
    if window.start >= window.end {
        return total;
    }
    for &element in &elements[place(window.start)..place(window.end)] {
        let (least, greatest) = total.edges.unwrap_or((element, element));
        total.edges = Some((least.min(element), greatest.max(element)));
        total.count += 1;
        total.sum += i128::from(element);
    }
    total
}

/// A window whose start is not below its end.
fn empty(start: u64, end: u64) -> Range<u64> {
    start..end
}

/// Those of two together.
fn joined(one: Total, other: Total) -> Total {
    let edges = match (one.edges, other.edges) {
        (Some(one), Some(other)) => Some((one.0.min(other.0), one.1.max(other.1))),
        (one, other) => one.or(other),
    };
    Total {
        count: one.count + other.count,
        edges,
        sum: one.sum + other.sum,
    }
}

/// Windows of a column; some are empty, of which some begin past its end.
fn windows(dice: &mut Dice, length: u64) -> Vec<Range<u64>> {
    let many = if dice.small(20) == 0 { 257 } else { 6 };
    let mut windows: Vec<Range<u64>> = (0..dice.below(many))
        .map(|_| dice.below(length + 2)..dice.below(length + 1))
        .collect();
    if let (Some(again), 0) = (windows.first().cloned(), dice.below(3)) {
        windows.truncate(255);
        windows.push(again);
    }
    windows
}

#[test]
fn totals_are_those_of_the_elements_added_one_by_one() {
    let (mut all_empty, mut full) = (0, 0);
    each_kind(|dice, column| {
        let elements: Vec<i64> = column.iter().collect();
        let windows = windows(dice, column.len());
        let expected: Vec<Total> = windows.iter().map(|w| by_hand(&elements, w)).collect();
        let all = expected.iter().copied().fold(Total::default(), joined);
        let Totals {
            all: got,
            windows: each,
        } = column.totals(&windows).unwrap();
        assert_eq!((got, &each), (all, &expected));
        let held = Total {
            count: 99,
            edges: Some((-77, -77)),
            sum: 99,
        };
        let mut out = vec![held; windows.len() + 2];
        assert_eq!(column.totals_into(&windows, &mut out), Ok(all));
        assert_eq!(out[..windows.len()], expected);
        assert_eq!(out[windows.len()..], [held; 2]);
        for (window, total) in windows.iter().zip(&expected) {
            assert_eq!(column.total(window.clone()), Ok(*total));
            assert_eq!(
                (total.least(), total.greatest()),
                (total.edges.map(|e| e.0), total.edges.map(|e| e.1))
            );
        }
        all_empty += u32::from(all.edges.is_none());
        full += u32::from(windows.len() > 200);
    });
    assert!(all_empty > 10 && full > 3, "{all_empty}, {full}");
}

#[test]
fn a_cut_window_has_the_totals_of_its_parts() {
    each_kind(|dice, column| {
        let (one, other) = (dice.below(column.len() + 1), dice.below(column.len() + 1));
        let (start, end) = (one.min(other), one.max(other));
        let middle = start + dice.below(end - start + 1);
        let parts = column.totals(&[start..middle, middle..end]).unwrap();
        assert_eq!(column.total(start..end), Ok(parts.all));
        assert_eq!(parts.all, joined(parts.windows[0], parts.windows[1]));
    });
}

/// All elements higher by one number: so are least and greatest, and the sum by as many times that as there are elements.
#[test]
fn a_column_that_is_moved_has_its_totals_moved() {
    each_kind(|dice, column| {
        let by = target(dice);
        let starts: Vec<i64> = column.starts().iter().map(|start| start + by).collect();
        let moved = Column::new(&starts, column.ends(), column.steps()).unwrap();
        let window = dice.below(column.len() + 1)..column.len();
        let Total { count, edges, sum } = column.total(window.clone()).unwrap();
        let edges = edges.map(|(least, greatest)| (least + by, greatest + by));
        let sum = sum + i128::from(by) * i128::from(count);
        assert_eq!(moved.total(window), Ok(Total { count, edges, sum }));
    });
}

#[test]
fn any_range_is_a_window() {
    let column = Column::new(&[10, 6], &[2, 5], &[-15, 1]).unwrap(); // 10 -5, 6 7 8
    assert_eq!(column.total(..).unwrap().sum, 26);
    assert_eq!(column.total(1..).unwrap().sum, 16);
    assert_eq!(column.total(..=1).unwrap().sum, 5);
    assert_eq!(column.total(2..4).unwrap().edges, Some((6, 7)));
    assert_eq!(column.total(empty(u64::MAX, 5)), Ok(Total::default()));
    assert_eq!(column.total(..6), Err(Refusal::Window));
    assert_eq!(column.total(..=u64::MAX), Err(Refusal::Window));
    assert_eq!(Column::default().total(..), Ok(Total::default()));
    assert_eq!(Column::default().totals(&[]), Ok(Totals::default()));
}

/// A column as long as one may be, of the least and of the greatest number, and what reaches the edges of a sum.
#[test]
fn the_edges_of_a_sum() {
    let most = raw::MAX_ELEMENTS;
    let whole = 0..most;
    for number in [i64::MIN, -1, 0, 1, i64::MAX] {
        let starts = [number];
        let column = Column::new(&starts, std::slice::from_ref(&most), &[0]).unwrap();
        let once = Total {
            count: most,
            edges: Some((number, number)),
            sum: i128::from(number) * i128::from(most),
        };
        assert_eq!(column.total(..), Ok(once));
        let twice = column.totals(&[whole.clone(), whole.clone()]);
        if (-1..=1).contains(&number) {
            assert_eq!(twice.unwrap().all, joined(once, once));
        } else {
            assert_eq!(twice, Err(Refusal::Total));
        }
    }
    // -2^63 taken 2^32 times is the least sum; one less is out of range, and may come back.
    let ends = [most - 2, most - 1, most];
    let column = Column::new(&[i64::MIN, -1, 1], &ends, &[0, 0, 0]).unwrap();
    let (low, less, more) = (0..most - 2, most - 2..most - 1, most - 1..most);
    let least = [low.clone(), 0..3];
    assert_eq!(column.totals(&least).unwrap().all.sum, -(1 << 95));
    let below = [&least[..], &[less]].concat();
    assert_eq!(column.totals(&below), Err(Refusal::Total));
    let back = [&below[..], &[more]].concat();
    assert_eq!(column.totals(&back).unwrap().all.sum, -(1 << 95));
    assert_eq!(column.totals(&back).unwrap().windows[2].sum, -1);
}

#[test]
fn refusals_in_their_order_leave_the_output() {
    let column = Column::new(&[i64::MAX], &[4_000_000_000], &[0]).unwrap();
    let whole = 0..column.len();
    let beyond = 0..column.len() + 1;
    let held = Total {
        count: 1,
        edges: None,
        sum: 2,
    };
    for (windows, refusal) in [
        (vec![beyond.clone(); 257], Refusal::Bounds),
        (
            vec![beyond.clone(), whole.clone(), whole.clone()],
            Refusal::Window,
        ),
        (
            vec![empty(9, 5), whole.clone(), u64::MAX..beyond.end],
            Refusal::Window,
        ),
        (vec![whole.clone(); 2], Refusal::Total),
        (vec![whole.clone(); 256], Refusal::Total),
        (vec![whole.clone()], Refusal::Room),
    ] {
        let mut out = [held; 0];
        assert_eq!(column.totals_into(&windows, &mut out), Err(refusal));
        let mut out = vec![held; windows.len() - 1];
        assert_eq!(column.totals_into(&windows, &mut out), Err(refusal));
        assert!(out.iter().all(|total| *total == held));
    }
    let mut out = [held; 2];
    assert_eq!(
        column.totals_into(&[empty(2, 1), empty(2, 1), empty(1, 1)], &mut out),
        Err(Refusal::Room)
    );
    assert_eq!(out, [held; 2]);
}

/// Each of the five outputs short by itself; lists of windows that differ in length.
#[test]
fn each_output_has_its_own_places() {
    let lengths =
        |short: usize| -> [usize; 5] { std::array::from_fn(|i| if i == short { 1 } else { 2 }) };
    for short in 0..6 {
        let lengths = lengths(short);
        let (mut counts, mut lows) = (vec![99; lengths[0]], vec![99; lengths[4]]);
        let [mut leasts, mut greatests, mut highs] = [1, 2, 3].map(|i| vec![-77; lengths[i]]);
        let all = raw::totals(
            &[4],
            &[3],
            &[-5],
            &[0, 3],
            &[2, 3],
            &mut counts,
            &mut leasts,
            &mut greatests,
            &mut highs,
            &mut lows, // 4 -1 -6
        );
        if short == 5 {
            let (count, least, greatest, high, low) = (2, -1, 4, 0, 3);
            let found = 1;
            assert_eq!(
                all,
                raw::Totalled {
                    refusal: 0,
                    found,
                    count,
                    least,
                    greatest,
                    high,
                    low
                }
            );
            assert_eq!((counts, lows), (vec![2, 0], vec![3, 0]));
            assert_eq!(
                (leasts, greatests, highs),
                (vec![-1, -77], vec![4, -77], vec![0, 0])
            );
        } else {
            let (found, count, least, greatest, high, low) = (0, 0, 0, 0, 0, 0);
            assert_eq!(
                all,
                raw::Totalled {
                    refusal: 10,
                    found,
                    count,
                    least,
                    greatest,
                    high,
                    low
                }
            );
            assert!(counts.iter().chain(&lows).all(|place| *place == 99));
            assert!(leasts
                .iter()
                .chain(&greatests)
                .chain(&highs)
                .all(|place| *place == -77));
        }
    }
    for (from, to) in [(&[0, 0][..], &[1][..]), (&[0], &[1, 1]), (&[], &[1])] {
        let (mut counts, mut lows) = ([99; 2], [99; 2]);
        let (mut leasts, mut greatests, mut highs) = ([-77; 2], [-77; 2], [-77; 2]);
        let all = raw::totals(
            &[4],
            &[3],
            &[-5],
            from,
            to,
            &mut counts,
            &mut leasts,
            &mut greatests,
            &mut highs,
            &mut lows,
        );
        assert_eq!((all.refusal, counts, lows), (8, [99; 2], [99; 2]));
        assert_eq!((leasts, greatests, highs), ([-77; 2], [-77; 2], [-77; 2]));
    }
}
