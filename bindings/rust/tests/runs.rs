//! Runs of calls and the iterators that stand on them, beside single calls: on random columns, of few runs and of many, that rise or not.
use std::panic::{catch_unwind, AssertUnwindSafe};

use loftsplice::{raw, Column, Refusal, Scan, ScanState};

mod random;

use random::{each_kind, lists, target, Dice};

/// A scan by single calls alone.
struct Single<'a>(Column<'a>, raw::Scan);

impl<'a> Single<'a> {
    fn of(column: Column<'a>) -> Single<'a> {
        Single(
            column,
            raw::scan_new(column.starts(), column.ends(), column.steps()).scan,
        )
    }

    fn next(&mut self) -> Option<i64> {
        let moved = raw::scan_next(self.1, self.0.starts(), self.0.ends(), self.0.steps());
        self.1 = moved.scan;
        (moved.answer.found == 1).then_some(moved.answer.value)
    }

    fn seek(&mut self, target: i64) -> Result<Option<i64>, Refusal> {
        let moved = raw::scan_seek(
            self.1,
            self.0.starts(),
            self.0.ends(),
            self.0.steps(),
            target,
        );
        self.1 = moved.scan;
        match Refusal::of(moved.answer.refusal) {
            Some(why) => Err(why),
            None => Ok((moved.answer.found == 1).then_some(moved.answer.value)),
        }
    }

    fn narrow(&mut self, start: u64, end: u64) {
        let (starts, ends, steps) = (self.0.starts(), self.0.ends(), self.0.steps());
        self.1 = raw::scan_narrow(self.1, starts, ends, steps, start, end).scan;
    }
}

fn same(scan: &Scan<'_>, single: &Single<'_>) {
    assert_eq!(scan.raw(), single.1);
    assert_eq!(scan.raw().state == raw::AT, scan.pos().is_some());
    assert_eq!(scan.current(), scan.pos().map(|_| scan.raw().value));
}

#[test]
fn the_iterator_gives_what_single_calls_give_and_stands_where_they_do() {
    each_kind(|dice, column| {
        let (mut scan, mut single) = (column.scan(), Single::of(column));
        for _ in 0..12 {
            for _ in 0..dice.below(400) {
                assert_eq!(scan.next(), single.next());
                assert_eq!(scan.raw(), single.1);
            }
            same(&scan, &single);
            match dice.below(8) {
                0 => {
                    let (start, end) = (dice.below(column.len() + 2), dice.below(column.len() + 1));
                    scan.narrow(start..end).unwrap();
                    single.narrow(start, end);
                }
                1 => {
                    scan.reset();
                    single.narrow(single.1.start, single.1.end);
                }
                2 => assert_eq!(scan.narrow(..=column.len()), Err(Refusal::Window)),
                3 => {
                    let mut other = scan.clone();
                    assert_eq!(other, scan);
                    assert_eq!(other.next(), scan.next());
                    assert_eq!(other, scan);
                    single.next();
                }
                _ => {
                    let target = target(dice);
                    assert_eq!(scan.seek(target), single.seek(target));
                }
            }
            same(&scan, &single);
        }
    });
}

#[test]
fn an_iterator_knows_how_many_are_left_and_stays_ended() {
    each_kind(|_, column| {
        let mut scan = column.iter();
        for left in (0..column.len()).rev() {
            assert!(scan.next().is_some());
            assert_eq!(scan.len() as u64, left);
        }
        assert_ne!(scan.state(), ScanState::Ended);
        assert_eq!((scan.next(), scan.next()), (None, None));
        assert_eq!((scan.state(), scan.len()), (ScanState::Ended, 0));
    });
}

#[test]
fn to_the_end_from_anywhere() {
    each_kind(|dice, column| {
        let (mut scan, mut single) = (column.scan(), Single::of(column));
        for _ in 0..dice.below(column.len() + 2) {
            assert_eq!(scan.next(), single.next());
        }
        let left: Vec<i64> = core::iter::from_fn(|| single.next()).collect();
        assert_eq!(scan.clone().count(), left.len());
        for scan in [scan.clone(), scan] {
            // with nothing fetched, and with what is left of a buffer
            let folded = scan.fold(Vec::new(), |mut values, value| {
                values.push(value);
                values
            });
            assert_eq!(folded, left);
        }
    });
}

#[test]
fn a_run_of_nexts_is_the_single_calls() {
    each_kind(|dice, column| {
        let (mut scan, mut single) = (column.scan(), Single::of(column));
        for round in 0..6 {
            if round % 2 == 1 {
                assert_eq!(scan.next(), single.next()); // a buffer that is partly read
            }
            let mut out = vec![-77; dice.small(300)];
            let values: Vec<i64> = (0..out.len()).map_while(|_| single.next()).collect();
            assert_eq!(scan.next_run(&mut out), values.len());
            assert_eq!(out[..values.len()], values);
            assert!(out[values.len()..].iter().all(|&place| place == -77));
            same(&scan, &single);
        }
    });
}

#[test]
fn a_run_of_seeks_is_the_single_calls() {
    each_kind(|dice, column| {
        let (mut scan, mut single) = (column.scan(), Single::of(column));
        for round in 0..6 {
            if round % 2 == 1 {
                assert_eq!(scan.next(), single.next());
            }
            let mut targets: Vec<i64> = (0..dice.below(60)).map(|_| target(dice)).collect();
            if dice.below(2) == 0 {
                targets.sort_unstable();
            }
            let mut out = vec![-77; targets.len()];
            if Single(column, scan.raw()).seek(0).is_err() {
                // no calls are still checked
                assert_eq!(scan.seek_run(&targets, &mut out), Err(Refusal::Order));
                assert!(out.iter().all(|&place| place == -77));
                same(&scan, &single);
                continue;
            }
            let before = scan.raw();
            let values: Vec<i64> = targets
                .iter()
                .map_while(|&target| single.seek(target).unwrap())
                .collect();
            if let Some(less) = values.len().checked_sub(1) {
                assert_eq!(
                    scan.seek_run(&targets, &mut out[..less]),
                    Err(Refusal::Room)
                );
                assert!(out.iter().all(|&place| place == -77));
                assert_eq!(scan.raw(), before);
            }
            assert_eq!(scan.seek_run(&targets, &mut out), Ok(values.len()));
            assert_eq!(out[..values.len()], values);
            assert!(out[values.len()..].iter().all(|&place| place == -77));
            same(&scan, &single);
        }
    });
}

#[test]
fn each_seek_is_answered_as_alone_and_the_scan_stands_behind_the_last_that_was_read() {
    each_kind(|dice, column| {
        let (mut scan, mut single) = (column.scan(), Single::of(column));
        for _ in 0..4 {
            let mut targets: Vec<i64> = (0..dice.below(900)).map(|_| target(dice)).collect();
            if dice.below(3) > 0 {
                targets.sort_unstable();
            }
            let read = dice.small(targets.len() as u64 + 3);
            let mut answers = scan.seek_each(targets.iter().copied());
            for (place, &target) in targets.iter().enumerate().take(read) {
                assert_eq!(answers.len(), targets.len() - place);
                assert_eq!(answers.next(), Some(single.seek(target)));
            }
            if read > targets.len() {
                assert_eq!((answers.next(), answers.next()), (None, None));
            }
            drop(answers);
            same(&scan, &single);
            assert_eq!(scan.next(), single.next());
        }
    });
}

#[test]
fn targets_that_panic_leave_the_scan_where_its_reader_stands() {
    let lists = lists(&mut Dice(3), true, 3, 900);
    let first = lists.0[0];
    let mut scan = lists.column().scan();
    let targets = (first..).inspect(|target| assert!(*target < first + 300, "no more targets"));
    let read = catch_unwind(AssertUnwindSafe(|| {
        scan.seek_each(targets).take(290).flatten().count()
    }));
    assert!(read.is_err());
    let mut single = Single::of(lists.column());
    for target in first..first + 256 {
        single.seek(target).unwrap(); // those of the first run of seeks were read
    }
    assert_eq!(single.1.state, raw::AT);
    same(&scan, &single);
}

#[test]
fn which_numbers_a_column_carries() {
    each_kind(|dice, column| {
        let elements: Vec<i64> = column.iter().collect();
        let numbers: Vec<i64> = (0..dice.below(80)).map(|_| target(dice)).collect();
        if elements.windows(2).all(|pair| pair[0] < pair[1]) {
            let carried: Vec<bool> = numbers.iter().map(|n| elements.contains(n)).collect();
            assert_eq!(column.carried(&numbers).as_ref(), Ok(&carried));
            for (&number, carried) in numbers.iter().zip(carried) {
                assert_eq!(column.contains(number), Ok(carried));
            }
            assert_eq!(column.carried(&elements), Ok(vec![true; elements.len()]));
        } else {
            assert_eq!(column.carried(&numbers), Err(Refusal::Order));
            assert_eq!(column.contains(0), Err(Refusal::Order));
        }
    });
}

#[test]
fn a_column_of_the_most_runs() {
    let lists = lists(&mut Dice(7), true, raw::MAX_RUNS, 9);
    let column = lists.column();
    let elements: Vec<i64> = column.iter().collect();
    assert_eq!(elements.len() as u64, column.len());
    let mut single = Single::of(column);
    for (place, &element) in elements.iter().enumerate() {
        if place % 97 == 0 {
            assert_eq!(single.seek(element), Ok(Some(element)));
            assert_eq!(single.1.index, place as u64);
        }
    }
    let mut scan = column.scan();
    let answers = scan.seek_each(elements.iter().map(|element| element - 1));
    for (place, (answer, &element)) in answers.zip(&elements).enumerate() {
        let one_less = place > 0 && elements[place - 1] == element - 1;
        assert_eq!(
            answer,
            Ok(Some(if one_less { element - 1 } else { element }))
        );
    }
}
