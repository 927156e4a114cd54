//! What a Rust developer expects of a crate: conversions, ranges, iterators, traits; and that what makes no call answers as the call does.
use std::collections::HashSet;
use std::error::Error;
use std::fmt::Debug;
use std::hash::Hash;
use std::iter::FusedIterator;
use std::ops;
use std::vec::IntoIter;

use loftsplice::{
    raw, Bound, Column, ColumnBuf, Fields, Filter, FilterState, Mode, NoRefusal, Place, Profile,
    Record, Refusal, Run, Runs, Scan, ScanState, SeekEach, Total, Totals, Unbounded, Values,
    Variables,
};

/// No runs; one element; 10 15 20 25, 30, 31, 40 140 240; 10 5, 6 7 8; the edges of i64.
fn columns() -> Vec<Column<'static>> {
    vec![
        Column::default(),
        Column::new(&[-7], &[1], &[9]).unwrap(),
        Column::new(&[10, 30, 31, 40], &[4, 5, 6, 9], &[5, 0, -3, 100]).unwrap(),
        Column::new(&[10, 6], &[2, 5], &[-5, 1]).unwrap(),
        Column::new(&[i64::MIN, i64::MAX], &[2, 3], &[1, -1]).unwrap(),
    ]
}

#[test]
fn numbers_become_refusals_and_go_back() {
    for number in 1..=200 {
        let refusal = Refusal::try_from(number).unwrap();
        assert_eq!(Some(refusal), Refusal::of(number));
        assert_eq!(u32::from(refusal), number);
        let known = (1..=18).contains(&number) || number == 100;
        assert_eq!(
            known,
            refusal
                .to_string()
                .starts_with(&format!("{number} {}: ", refusal.name()))
        );
        assert_eq!(known, refusal.name() != "unknown");
    }
    assert_eq!(Refusal::try_from(0), Err(NoRefusal));
}

#[test]
fn bounds_go_to_std_and_back() {
    for bound in [Bound::Inclusive(5), Bound::Exclusive(5)] {
        assert_eq!(Bound::try_from(ops::Bound::from(bound)), Ok(bound));
    }
    assert_eq!(
        ops::Bound::from(Bound::Inclusive(5)),
        ops::Bound::Included(5)
    );
    assert_eq!(
        ops::Bound::from(Bound::Exclusive(5)),
        ops::Bound::Excluded(5)
    );
    let none: Result<Bound<usize>, _> = ops::Bound::Unbounded.try_into();
    assert_eq!(none, Err(Unbounded));
}

#[test]
fn a_window_is_any_range() {
    let mut scan = columns()[2].scan();
    let mut windows = Vec::new();
    scan.narrow(2..5).unwrap();
    windows.push(scan.window());
    scan.narrow(2..=4).unwrap();
    windows.push(scan.window());
    scan.narrow(..5).unwrap();
    windows.push(scan.window());
    scan.narrow(..=4).unwrap();
    windows.push(scan.window());
    scan.narrow(2..).unwrap();
    windows.push(scan.window());
    scan.narrow(..).unwrap();
    windows.push(scan.window());
    scan.narrow((ops::Bound::Excluded(1), ops::Bound::Excluded(5)))
        .unwrap();
    windows.push(scan.window());
    assert_eq!(windows, [2..5, 2..5, 0..5, 0..5, 2..9, 0..9, 2..5]);
}

#[test]
fn a_window_at_the_edge_of_the_numbers() {
    let mut scan = columns()[2].scan();
    scan.next();
    for end in [9, 10, u64::MAX - 1, u64::MAX] {
        assert_eq!(scan.narrow(..=end), Err(Refusal::Window));
        assert_eq!((scan.window(), scan.pos()), (0..9, Some(0)));
    }
    for before in [8, 9, u64::MAX - 1, u64::MAX] {
        scan.narrow((ops::Bound::Excluded(before), ops::Bound::Unbounded))
            .unwrap();
        assert_eq!((scan.len(), scan.next()), (0, None));
    }
}

/// First, last and runs against the elements one by one.
#[test]
fn first_last_and_runs_are_those_of_the_elements() {
    for column in columns() {
        let elements: Vec<i64> = (0..column.len()).map(|i| column.get(i).unwrap()).collect();
        assert_eq!(column.first(), elements.first().copied());
        assert_eq!(column.last(), elements.last().copied());
        let by_runs: Vec<i64> = column
            .runs()
            .flat_map(|run| (0..run.elements).map(move |k| (run, i128::from(k))))
            .map(|(run, k)| i128::from(run.start) + i128::from(run.step) * k)
            .map(|element| i64::try_from(element).unwrap())
            .collect();
        assert_eq!(by_runs, elements);
        let mut back: Vec<Run> = column.runs().rev().collect();
        back.reverse();
        assert_eq!(back, column.runs().collect::<Vec<_>>());
        assert_eq!(column.runs().len(), column.starts().len());
        let mut given = Vec::new();
        for element in &column {
            given.push(element);
        }
        assert_eq!(given, elements);
        assert_eq!(column.iter().collect::<Vec<_>>(), elements);
    }
}

#[test]
fn a_scan_knows_how_many_are_left() {
    for column in columns() {
        let mut scan = column.scan();
        let mut left = usize::try_from(column.len()).unwrap();
        assert_eq!(scan.len(), left);
        while scan.next().is_some() {
            left -= 1;
            assert_eq!(scan.size_hint(), (left, Some(left)));
        }
        assert_eq!((left, scan.len(), scan.next()), (0, 0, None));
    }
    let mut scan = columns()[2].scan();
    scan.seek(30).unwrap();
    assert_eq!((scan.len(), scan.clone().count()), (4, 4));
    let (start, end) = (8, 2);
    scan.narrow(start..end).unwrap();
    assert_eq!((scan.len(), scan.count()), (0, 0));
}

/// What the crate knows without a call is what the library answers.
#[test]
fn what_makes_no_call_answers_as_the_call_does() {
    for column in columns() {
        let (starts, ends, steps) = (column.starts(), column.ends(), column.steps());
        assert_eq!(column.len(), raw::len(starts, ends, steps).length);
        let empty = raw::is_empty(starts, ends, steps).empty;
        assert_eq!(u32::from(column.is_empty()), empty);
        assert_eq!(column.first(), column.get(0).ok());
        let mut scan = column.scan();
        for _ in 0..=column.len() + 1 {
            let pos = raw::scan_pos(scan.raw(), starts, ends, steps);
            assert_eq!(scan.pos(), (pos.found == 1).then_some(pos.index));
            scan.next();
        }
    }
}

/// A function of C can't be called by a `const fn`: so these make no call, and that they compile is the test.
const fn without_a_call(column: &Column<'_>, scan: &Scan<'_>) -> (u64, bool, Option<i64>) {
    let _ = (
        scan.pos(),
        scan.state(),
        scan.window(),
        scan.column(),
        scan.raw(),
    );
    (column.len(), column.is_empty(), column.first())
}

#[test]
fn what_costs_nothing() {
    let column = columns()[2];
    assert_eq!(
        without_a_call(&column, &column.scan()),
        (9, false, Some(10))
    );
}

/// Each type has the traits that make sense for it; that this compiles is the test.
#[test]
fn traits() {
    fn value<T: Clone + Debug + Eq + Hash + Send + Sync>() {}
    fn default<T: Default>() {}
    fn fused<T: FusedIterator + Clone + Debug>() {}
    fn exact<T: ExactSizeIterator>() {}
    fn lent<T: FusedIterator + ExactSizeIterator + Debug + Send + Sync>() {}
    fn error<T: Error + Copy + Send + Sync + 'static>() {}
    value::<(Column<'_>, ColumnBuf, Place, Run, Runs<'_>, Record)>();
    value::<(Scan<'_>, ScanState, Filter<'_>, FilterState, Values<'_>)>();
    value::<(Bound, Mode, Variables<'_>, Refusal, NoRefusal, Unbounded)>();
    value::<(raw::Scan, raw::Limit, raw::Filter, raw::Variables<'_>)>();
    value::<(
        raw::Length,
        raw::Emptiness,
        raw::Place,
        raw::Difference,
        raw::Answer,
        raw::Position,
    )>();
    value::<(
        raw::NewScan,
        raw::Moved,
        raw::Ran,
        raw::NewFilter,
        raw::Sifted,
        raw::FilterRan,
        raw::Reset,
    )>();
    value::<(raw::Listed, raw::ReadRecord, raw::Written, raw::Built)>();
    value::<(raw::Imported, raw::Exported)>();
    value::<(Fields<'_>, Profile, raw::Carried, raw::Records)>();
    value::<(raw::Totalled, Total, Totals)>();
    default::<(
        Column<'_>,
        ColumnBuf,
        ScanState,
        FilterState,
        Mode,
        Variables<'_>,
    )>();
    default::<(raw::Scan, raw::Limit, raw::Variables<'_>)>();
    default::<(Total, Totals)>();
    fused::<Scan<'_>>();
    fused::<Runs<'_>>();
    fused::<Values<'_>>();
    lent::<SeekEach<'_, Scan<'_>, IntoIter<i64>>>();
    lent::<SeekEach<'_, Filter<'_>, IntoIter<i64>>>();
    exact::<Scan<'_>>();
    exact::<Runs<'_>>();
    error::<Refusal>();
    error::<NoRefusal>();
    error::<Unbounded>();

    assert_eq!(
        (ScanState::default(), FilterState::default()),
        (ScanState::Fresh, FilterState::Before)
    );
    assert_eq!(raw::Scan::default(), Column::default().scan().raw());
    assert_eq!(raw::Limit::default().kind, raw::FREE);
    assert_eq!(ColumnBuf::default().as_column(), Column::default());
    assert_eq!(
        columns()
            .into_iter()
            .chain(columns())
            .collect::<HashSet<_>>()
            .len(),
        columns().len()
    );
}
