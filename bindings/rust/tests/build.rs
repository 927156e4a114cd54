//! Columns from plain lists: beside one call of the library, however the values come, and what a refusal leaves.
use loftsplice::{raw, Column, ColumnBuf, Refusal};

mod random;

use random::{each_kind, target, Dice};

/// The runs of a list by one call, into as many places as there are values.
fn whole(values: &[i64]) -> Result<ColumnBuf, Refusal> {
    let places = values.len();
    let (mut starts, mut ends, mut steps) = (vec![0; places], vec![0; places], vec![0; places]);
    let built = raw::build(values, &mut starts, &mut ends, &mut steps);
    if let Some(why) = Refusal::of(built.refusal) {
        return Err(why);
    }
    let runs = usize::try_from(built.runs).unwrap();
    starts.truncate(runs);
    ends.truncate(runs);
    steps.truncate(runs);
    ColumnBuf::new(starts, ends, steps)
}

/// A list in which runs of each length come, steps that fit and differences that do not, at either end of `i64` too.
fn list(dice: &mut Dice, parts: u64) -> Vec<i64> {
    let mut values = Vec::new();
    for _ in 0..dice.below(parts + 1) {
        let start = match dice.below(8) {
            0 => i64::MIN,
            1 => i64::MAX - 9,
            _ => dice.between(-60, 60),
        };
        let step = [0, 1, -1, 7, 32_767, -32_768, 32_768, -32_769][dice.small(8)];
        let length = if dice.below(3) == 0 { 40_000 } else { 5 };
        let next = |value: &i64| value.checked_add(step);
        let run = std::iter::successors(Some(start), next);
        values.extend(run.take(dice.small(length)));
    }
    values
}

#[test]
fn however_the_values_come_it_is_one_call() {
    let mut dice = Dice(20_260_801);
    let mut built = 0;
    for round in 0..400 {
        let values = list(&mut dice, if round % 8 == 0 { 40 } else { 6 });
        let expected = whole(&values);
        built += u32::from(expected.is_ok());
        assert_eq!(ColumnBuf::try_from(&values[..]), expected);
        assert_eq!(ColumnBuf::from_values(values.iter().copied()), expected);
        let Ok(expected) = expected else { continue };
        assert_eq!(expected.iter().collect::<Vec<_>>(), values);
        // in pieces, which may be empty
        let mut column = ColumnBuf::default();
        let mut rest = &values[..];
        while !rest.is_empty() {
            let (piece, more) =
                rest.split_at(dice.small(rest.len() as u64 + 1).min(3 + rest.len() / 3));
            column.try_extend(piece.iter().copied()).unwrap();
            rest = more;
            let done = values.len() - rest.len();
            assert_eq!(Ok(&column), whole(&values[..done]).as_ref());
        }
        assert_eq!(column, expected);
    }
    assert!(built > 200, "{built}");
}

#[test]
fn any_column_is_extended_to_what_is_built_from_all_of_it() {
    each_kind(|dice, column| {
        let elements: Vec<i64> = column.iter().collect();
        let more: Vec<i64> = match elements.last() {
            // going on as the last run does, or not
            Some(&last) if dice.below(2) == 0 => (1..4).map(|k| last + 3 * k).collect(),
            _ if dice.below(2) == 0 => (0..5).map(|_| target(dice)).collect(),
            _ => list(dice, 2),
        };
        let all: Vec<i64> = elements.iter().chain(&more).copied().collect();
        let mut extended = ColumnBuf::from(column);
        let kept = extended.clone();
        match whole(&all) {
            Ok(built) => {
                assert_eq!(extended.try_extend(more), Ok(()));
                assert_eq!(extended, built);
                // by the rule already: nothing changes it
                extended.try_extend([]).unwrap();
                assert_eq!(extended, built);
            }
            Err(why) => {
                assert_eq!(extended.try_extend(more), Err(why));
                assert_eq!(extended, kept);
            }
        }
    });
}

/// Runs of one, as many as are asked for: no two of these have a step.
fn far_apart(runs: i64) -> impl Iterator<Item = i64> + Clone {
    (0..runs).map(|run| run * 100_000)
}

#[test]
fn the_most_runs_and_one_more() {
    let most = i64::try_from(raw::MAX_RUNS).unwrap();
    let full = ColumnBuf::from_values(far_apart(most)).unwrap();
    assert_eq!(full.as_column().starts().len(), raw::MAX_RUNS);
    assert_eq!(
        ColumnBuf::from_values(far_apart(most + 1)),
        Err(Refusal::Shape)
    );
    let values: Vec<i64> = far_apart(most + 1).collect();
    assert_eq!(ColumnBuf::try_from(&values[..]), Err(Refusal::Shape));
    let mut column = ColumnBuf::from_values(far_apart(most - 1)).unwrap();
    let before = column.clone();
    assert_eq!(column.try_extend([-5, 500_000]), Err(Refusal::Shape));
    assert_eq!(column, before);
    // a value that joins needs no run
    column.try_extend([-5]).unwrap();
    column.try_extend([-4, -3]).unwrap();
    assert_eq!(column.as_column().starts().len(), raw::MAX_RUNS);
    assert_eq!(column.try_extend([-3]), Err(Refusal::Shape));
    assert_eq!(column.as_column().last(), Some(-3));
}

#[test]
fn the_most_values_and_one_more() {
    let mut column = ColumnBuf::new(vec![-7], vec![raw::MAX_ELEMENTS - 2], vec![1]).unwrap();
    let last = column.as_column().last().unwrap();
    column.try_extend([last + 1]).unwrap();
    let lists = (vec![-7], vec![raw::MAX_ELEMENTS - 1], vec![1]);
    assert_eq!(column.clone().into_lists(), lists);
    assert_eq!(column.try_extend([0, 0]), Err(Refusal::Shape));
    assert_eq!(column.clone().into_lists(), lists);
    column.try_extend([0]).unwrap();
    assert_eq!(column.as_column().len(), raw::MAX_ELEMENTS);
    assert_eq!(column.try_extend([0]), Err(Refusal::Shape));
    assert_eq!(column.try_extend([]), Ok(()));
}

#[test]
fn values_that_panic_leave_the_column_as_it_was() {
    let mut column = ColumnBuf::from_values([1, 2, 4]).unwrap();
    let before = column.clone();
    let values = (0..40_000).inspect(|&value| assert!(value < 30_000, "no more values"));
    let extended =
        std::panic::catch_unwind(std::panic::AssertUnwindSafe(|| column.try_extend(values)));
    assert!(extended.is_err());
    assert_eq!(column, before);
}

#[test]
fn a_refused_build_writes_nothing() {
    let values = [10, 15, 20, 21, 99_999];
    for short in 0..3 {
        let room = |list: usize| if list == short { 2 } else { 4 };
        let (mut starts, mut ends, mut steps) = ([7; 4], [7; 4], [7; 4]);
        let built = raw::build(
            &values,
            &mut starts[..room(0)],
            &mut ends[..room(1)],
            &mut steps[..room(2)],
        );
        let refused = raw::Built {
            refusal: 10,
            runs: 0,
        };
        assert_eq!(
            (built, starts, ends, steps),
            (refused, [7; 4], [7; 4], [7; 4])
        );
    }
    let (mut starts, mut ends, mut steps) = ([7; 4], [7; 5], [7; 3]);
    let built = raw::build(&values, &mut starts, &mut ends, &mut steps);
    assert_eq!((built.refusal, built.runs), (0, 3));
    assert_eq!(
        (starts, ends, steps),
        ([10, 21, 99_999, 7], [3, 4, 5, 7, 7], [5, 0, 0])
    );
    // 1 before 10
    let many: Vec<i64> = far_apart(4_097).collect();
    assert_eq!(raw::build(&many, &mut [], &mut [], &mut []).refusal, 1);
    assert_eq!(raw::build(&[], &mut [], &mut [], &mut []).runs, 0);
    assert_eq!(ColumnBuf::try_from(&[][..]), Ok(Column::default().into()));
}
