//! Runs of calls on a filter and the iterators that stand on them, beside single calls: on random columns, windows, bounds and inputs.
use loftsplice::{raw, Bound, Column, Filter, Mode, Refusal, Variables};

mod random;

use random::{each_kind, target, Dice};

/// A filter by single calls alone.
struct Single<'a>(Column<'a>, raw::Filter);

/// Lists of numbers, as they cross.
struct Numbers {
    lower: (Vec<u64>, Vec<u8>),
    upper: (Vec<u64>, Vec<u8>),
    inputs: (Vec<i64>, Vec<u8>),
}

impl Numbers {
    fn of(variables: Variables<'_>) -> Numbers {
        let list = |bounds: &[Bound<usize>]| {
            let one = |bound: &Bound<usize>| match *bound {
                Bound::Inclusive(input) => (input as u64, 1),
                Bound::Exclusive(input) => (input as u64, 2),
            };
            bounds.iter().map(one).unzip()
        };
        let inputs = variables.inputs.iter();
        Numbers {
            lower: list(variables.lower),
            upper: list(variables.upper),
            inputs: inputs
                .map(|input| (input.unwrap_or(0), u8::from(input.is_some())))
                .unzip(),
        }
    }

    fn lent(&self) -> raw::Variables<'_> {
        raw::Variables {
            lower_inputs: &self.lower.0,
            lower_kinds: &self.lower.1,
            upper_inputs: &self.upper.0,
            upper_kinds: &self.upper.1,
            input_values: &self.inputs.0,
            input_found: &self.inputs.1,
        }
    }
}

impl Single<'_> {
    fn next(&mut self, variables: Variables<'_>) -> Result<Option<i64>, Refusal> {
        let (starts, ends, steps) = (self.0.starts(), self.0.ends(), self.0.steps());
        let lists = Numbers::of(variables);
        self.sifted(raw::filter_next(self.1, starts, ends, steps, lists.lent()))
    }

    fn seek(&mut self, target: i64, variables: Variables<'_>) -> Result<Option<i64>, Refusal> {
        let (starts, ends, steps) = (self.0.starts(), self.0.ends(), self.0.steps());
        let lists = Numbers::of(variables);
        let sifted = raw::filter_seek(self.1, starts, ends, steps, target, lists.lent());
        self.sifted(sifted)
    }

    fn sifted(&mut self, sifted: raw::Sifted) -> Result<Option<i64>, Refusal> {
        self.1 = sifted.filter;
        match Refusal::of(sifted.answer.refusal) {
            Some(why) => Err(why),
            None => Ok((sifted.answer.found == 1).then_some(sifted.answer.value)),
        }
    }
}

fn bounds<T>(dice: &mut Dice, most: u64, mut one: impl FnMut(&mut Dice) -> T) -> Vec<Bound<T>> {
    let mut bound = |dice: &mut Dice| match dice.below(2) {
        0 => Bound::Inclusive(one(dice)),
        _ => Bound::Exclusive(one(dice)),
    };
    (0..dice.below(most + 1)).map(|_| bound(dice)).collect()
}

/// A lower bound in the lower half, so that elements are left.
fn low(dice: &mut Dice) -> i64 {
    dice.between(-600, 0)
}

fn high(dice: &mut Dice) -> i64 {
    dice.between(0, 3_000)
}

/// Filters over columns of each kind, over a window and a scan that has gone on and fetched, each with its single calls.
fn each_filter(mut test: impl FnMut(&mut Dice, Filter<'_>, Single<'_>)) {
    each_kind(|dice, column| {
        let mut scan = column.scan();
        if dice.below(3) == 0 {
            let (start, end) = (dice.below(column.len() + 1), dice.below(column.len() + 1));
            scan.narrow(start..end).unwrap();
        }
        for _ in 0..dice.below(4) {
            scan.next();
        }
        let mode = [Mode::InclusiveWins, Mode::ExclusiveWins][dice.small(2)];
        let (lower, upper) = (bounds(dice, 2, low), bounds(dice, 2, high));
        let filter = Filter::in_mode(mode, scan, &lower, &upper).unwrap();
        let single = Single(column, filter.raw());
        test(dice, filter, single);
    });
}

/// Variable bounds of each kind: none, good ones, and now and then ones that are refused.
fn with_variables(dice: &mut Dice, test: impl FnOnce(&mut Dice, Variables<'_>)) {
    let inputs: Vec<Option<i64>> = [low(dice), high(dice)].map(Some).into();
    let (mut lower, mut upper) = (bounds(dice, 2, |_| 0), bounds(dice, 2, |_| 1));
    match dice.below(12) {
        0 => lower.push(Bound::Exclusive(2)),
        1 => upper.resize(17, Bound::Inclusive(1)),
        2..=6 => (lower, upper) = (vec![], vec![]),
        _ => {}
    }
    let variables = Variables {
        lower: &lower,
        upper: &upper,
        inputs: &inputs,
    };
    test(dice, variables);
}

fn same(filter: &Filter<'_>, single: &Single<'_>) {
    assert_eq!(filter.raw(), single.1);
    assert_eq!(filter.scan().raw(), single.1.scan);
    let within = single.1.state == raw::WITHIN;
    assert_eq!(
        filter.current(),
        within.then(|| filter.scan().current()).flatten()
    );
}

const NONE: Variables<'_> = Variables {
    lower: &[],
    upper: &[],
    inputs: &[],
};

#[test]
fn next_gives_what_single_calls_give_and_stands_where_they_do() {
    each_filter(|dice, mut filter, mut single| {
        for _ in 0..8 {
            for _ in 0..dice.below(400) {
                assert_eq!(filter.next(), single.next(NONE));
                assert_eq!(filter.raw(), single.1);
            }
            same(&filter, &single);
            match dice.below(8) {
                0 => {
                    filter.reset();
                    single.1 = raw::filter_reset(single.1).filter;
                }
                1 => with_variables(dice, |_, variables| {
                    assert_eq!(filter.next_with(variables), single.next(variables));
                }),
                2 => with_variables(dice, |dice, variables| {
                    let target = target(dice);
                    let answer = filter.seek_with(target, variables);
                    assert_eq!(answer, single.seek(target, variables));
                }),
                3 => {
                    let mut other = filter.clone();
                    assert_eq!(other, filter);
                    assert_eq!(other.next(), filter.next());
                    assert_eq!(other, filter);
                    single.next(NONE).ok();
                }
                _ => {
                    let target = target(dice);
                    assert_eq!(filter.seek(target), single.seek(target, NONE));
                }
            }
            same(&filter, &single);
        }
    });
}

#[test]
fn the_iterator_goes_up_to_none_or_a_refusal_and_knows_between_what_it_gives() {
    each_filter(|dice, mut filter, mut single| {
        for _ in 0..dice.below(3) {
            assert_eq!(filter.next(), single.next(NONE));
        }
        if dice.below(4) == 0 {
            filter.reset();
            single.1 = raw::filter_reset(single.1).filter;
        }
        let read = dice.small(700);
        let mut values = filter.clone().values();
        for _ in 0..read {
            assert_eq!(values.next(), single.next(NONE).transpose());
            if single.1.state != raw::WITHIN {
                assert_eq!((values.next(), values.next()), (None, None));
                assert_eq!(values.size_hint(), (0, Some(0)));
                break;
            }
            let (least, most) = values.size_hint();
            let left = values.clone().count();
            assert!(least <= left && left <= most.unwrap());
        }
        assert_eq!(values.clone().into_filter(), values.into_filter());
        let hint = filter.clone().values().size_hint();
        let all: Vec<Result<i64, Refusal>> = filter.clone().into_iter().collect();
        assert!(hint.0 <= all.len() && all.len() <= hint.1.unwrap());
        let mut again = filter.values();
        assert_eq!(
            again.by_ref().take(read).collect::<Vec<_>>(),
            all[..read.min(all.len())]
        );
        let goes_on = again.into_filter();
        let stands = Single(single.0, goes_on.raw());
        same(&goes_on, &stands);
    });
}

#[test]
fn a_run_of_nexts_is_the_single_calls() {
    each_filter(|dice, mut filter, mut single| {
        for round in 0..6 {
            if round % 2 == 1 {
                assert_eq!(filter.next(), single.next(NONE)); // a buffer that is partly read
                assert_eq!(filter.next(), single.next(NONE));
            }
            with_variables(dice, |dice, variables| {
                let mut out = vec![-77; dice.small(300)];
                let mut after = Single(single.0, single.1);
                if let Err(why) = after.next(variables) {
                    // no calls are still checked
                    assert_eq!(filter.next_run_with(variables, &mut out), Err(why));
                    assert_eq!(filter.next_run_with(variables, &mut []), Err(why));
                    assert!(out.iter().all(|&place| place == -77));
                    return;
                }
                let each = (0..out.len()).map_while(|_| single.next(variables).unwrap());
                let values: Vec<i64> = each.collect();
                let count = if variables.lower.is_empty() && variables.upper.is_empty() {
                    filter.next_run(&mut out)
                } else {
                    filter.next_run_with(variables, &mut out)
                };
                assert_eq!(count, Ok(values.len()));
                assert_eq!(out[..values.len()], values);
                assert!(out[values.len()..].iter().all(|&place| place == -77));
            });
            same(&filter, &single);
        }
    });
}

fn some_targets(dice: &mut Dice, most: u64) -> Vec<i64> {
    let mut targets: Vec<i64> = (0..dice.below(most)).map(|_| target(dice)).collect();
    if dice.below(3) > 0 {
        targets.sort_unstable();
    }
    targets
}

#[test]
fn a_run_of_seeks_is_the_single_calls() {
    each_filter(|dice, mut filter, mut single| {
        for round in 0..6 {
            if round % 2 == 1 {
                assert_eq!(filter.next(), single.next(NONE));
                assert_eq!(filter.next(), single.next(NONE));
            }
            with_variables(dice, |dice, variables| {
                let targets = some_targets(dice, 60);
                let mut out = vec![-77; targets.len()];
                let before = filter.raw();
                if let Err(why) = Single(single.0, single.1).seek(0, variables) {
                    let refused = filter.seek_run_with(&targets, variables, &mut out);
                    assert_eq!(refused, Err(why));
                    assert_eq!(filter.seek_run_with(&[], variables, &mut []), Err(why));
                    assert!(out.iter().all(|&place| place == -77));
                    return;
                }
                let each = targets.iter();
                let values: Vec<i64> = each
                    .map_while(|&target| single.seek(target, variables).unwrap())
                    .collect();
                if let Some(less) = values.len().checked_sub(1) {
                    let short = filter.seek_run_with(&targets, variables, &mut out[..less]);
                    assert_eq!(short, Err(Refusal::Room));
                    assert!(out.iter().all(|&place| place == -77));
                    assert_eq!(filter.raw(), before);
                }
                let count = if variables.lower.is_empty() && variables.upper.is_empty() {
                    filter.seek_run(&targets, &mut out)
                } else {
                    filter.seek_run_with(&targets, variables, &mut out)
                };
                assert_eq!(count, Ok(values.len()));
                assert_eq!(out[..values.len()], values);
                assert!(out[values.len()..].iter().all(|&place| place == -77));
            });
            same(&filter, &single);
        }
    });
}

#[test]
fn each_seek_is_answered_as_alone_and_the_filter_stands_behind_the_last_that_was_read() {
    each_filter(|dice, mut filter, mut single| {
        for _ in 0..3 {
            let targets = some_targets(dice, 700);
            let read = dice.small(targets.len() as u64 + 3);
            let mut answers = filter.seek_each(targets.iter().copied());
            for (place, &target) in targets.iter().enumerate().take(read) {
                assert_eq!(answers.len(), targets.len() - place);
                assert_eq!(answers.next(), Some(single.seek(target, NONE)));
            }
            if read > targets.len() {
                assert_eq!((answers.next(), answers.next()), (None, None));
            }
            drop(answers);
            same(&filter, &single);
            assert_eq!(filter.next(), single.next(NONE));
            if dice.below(2) == 0 {
                filter.reset();
                single.1 = raw::filter_reset(single.1).filter;
            }
        }
    });
}
