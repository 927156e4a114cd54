//! Document 01's examples through the safe calls.
use loftsplice::{
    list_in_mode, Bound, Column, Filter, Mode, Place, Refusal, Scan, ScanState, Variables,
};

/// 10 15 20 25, 30, 31, 40 140 240
const C: (&[i64], &[u64], &[i16]) = (&[10, 30, 31, 40], &[4, 5, 6, 9], &[5, 0, -3, 100]);
/// 10 5, 6 7 8
const D: (&[i64], &[u64], &[i16]) = (&[10, 6], &[2, 5], &[-5, 1]);

fn column(lists: (&'static [i64], &'static [u64], &'static [i16])) -> Column<'static> {
    Column::new(lists.0, lists.1, lists.2).unwrap()
}

fn narrowed(column: Column<'static>, start: u64, end: u64) -> Scan<'static> {
    let mut scan = column.scan();
    scan.narrow(start..end).unwrap();
    scan
}

#[test]
fn p1_p2_elements_and_places() {
    let c = column(C);
    assert_eq!(
        (c.get(3), c.get(8), c.get(9)),
        (Ok(25), Ok(240), Err(Refusal::Index))
    );
    assert_eq!(
        c.place(4),
        Ok(Place {
            run: 1,
            offset: 0,
            follows: 1
        })
    );
    assert_eq!(
        c.place(9),
        Ok(Place {
            run: 4,
            offset: 0,
            follows: 0
        })
    );
    assert_eq!(c.place(10), Err(Refusal::Index));
}

#[test]
fn p3_to_p6_seeks() {
    let mut scan = column(C).scan();
    assert_eq!((scan.seek(16), scan.pos()), (Ok(Some(20)), Some(2)));
    let mut scan = column(C).scan();
    assert_eq!((scan.seek(26), scan.pos()), (Ok(Some(30)), Some(4)));
    assert_eq!(
        (scan.seek(31), scan.seek(12), scan.pos()),
        (Ok(Some(31)), Ok(Some(31)), Some(5))
    );
    assert_eq!(
        (scan.seek(241), scan.next(), scan.state()),
        (Ok(None), None, ScanState::Ended)
    );
}

#[test]
fn p7_to_p9_windows() {
    let mut scan = narrowed(column(C), 3, 8);
    assert_eq!((scan.next(), scan.seek(200)), (Some(25), Ok(None)));
    assert_eq!(narrowed(column(C), 3, 3).next(), None);
    assert_eq!(narrowed(column(C), 8, 2).next(), None);
    let mut scan = column(C).scan();
    assert_eq!(
        (scan.narrow(0..10), scan.window()),
        (Err(Refusal::Window), 0..9)
    );
    assert_eq!(column(D).scan().seek(6), Err(Refusal::Order));
    let mut scan = narrowed(column(D), 1, 5);
    assert_eq!((scan.seek(6), scan.pos()), (Ok(Some(6)), Some(2)));
}

#[test]
fn p10_p11_filters() {
    let values = |lower: &[Bound], upper: &[Bound]| -> Vec<i64> {
        let filter = Filter::new(column(C).scan(), lower, upper).unwrap();
        filter.values().collect::<Result<_, _>>().unwrap()
    };
    assert_eq!(
        values(&[Bound::Exclusive(10)], &[Bound::Inclusive(40)]),
        [15, 20, 25, 30, 31, 40]
    );
    assert_eq!(
        values(&[], &[Bound::Inclusive(15), Bound::Exclusive(15)]),
        [10, 15]
    );
    let mut filter = Filter::new(column(C).scan(), &[], &[]).unwrap();
    assert_eq!(filter.seek(100), Ok(Some(10)));
}

/// The twin of P11: both upper bounds mean both. Lower bounds are the same in both modes.
#[test]
fn p11_in_strict_mode() {
    let both = |value| [Bound::Inclusive(value), Bound::Exclusive(value)];
    for (mode, upper, values) in [
        (Mode::default(), Bound::Inclusive(15), vec![10, 15]),
        (Mode::ExclusiveWins, Bound::Exclusive(15), vec![10]),
    ] {
        let filter = Filter::in_mode(mode, column(C).scan(), &both(0), &both(15)).unwrap();
        assert_eq!(
            (filter.mode(), filter.lower(), filter.upper()),
            (mode, Some(Bound::Exclusive(0)), Some(upper))
        );
        let given: Vec<i64> = filter.values().collect::<Result<_, _>>().unwrap();
        assert_eq!(given, values);
        let (mut out, mut counts) = ([-77; 2], [99]);
        let window = 0..9;
        let windows = std::slice::from_ref(&window);
        let sum = list_in_mode(
            mode,
            column(C),
            windows,
            &[],
            &both(15),
            &mut out,
            &mut counts,
        );
        assert_eq!(sum, Ok(values.len() as u64));
        assert_eq!(&out[..values.len()], values);
    }
}

/// "Reset keeps it": the scan stands on 20, and "at most 20" beside "below 20" does not let it through again.
#[test]
fn reset_keeps_the_mode() {
    let at_most_20 = Variables {
        upper: &[Bound::Inclusive(0)],
        inputs: &[Some(20)],
        ..Variables::default()
    };
    for (mode, again) in [(Mode::InclusiveWins, Some(20)), (Mode::ExclusiveWins, None)] {
        let mut scan = column(C).scan();
        scan.seek(20).unwrap();
        let (lower, upper) = ([Bound::Inclusive(10)], [Bound::Exclusive(20)]);
        let mut filter = Filter::in_mode(mode, scan, &lower, &upper).unwrap();
        for _ in 0..2 {
            assert_eq!(filter.next_with(at_most_20), Ok(again));
            filter.reset();
            assert_eq!(filter.mode(), mode);
        }
    }
}

#[test]
fn p12_reach() {
    assert_eq!(
        Column::new(&[9_223_372_036_854_775_800], &[8], &[1]).map(|c| c.get(7)),
        Ok(Ok(i64::MAX))
    );
    assert_eq!(
        Column::new(&[9_223_372_036_854_775_800], &[9], &[1]).unwrap_err(),
        Refusal::Reach
    );
}

#[test]
fn every_refusal_has_its_number() {
    for number in (1..=18).chain([100, 77]) {
        assert_eq!(Refusal::of(number).map(Refusal::number), Some(number));
    }
    assert_eq!(Refusal::of(77), Some(Refusal::Other(77)));
}

#[test]
fn what_is_carried_is_the_element_at_the_index() {
    let holds = |scan: &Scan| {
        let element = scan.pos().map(|i| scan.column().get(i).unwrap());
        assert_eq!(scan.current(), element);
        assert_eq!((scan.raw().found == 1).then_some(scan.raw().value), element);
    };
    let mut scan = column(C).scan();
    holds(&scan);
    for target in [12, 26, 31, 241] {
        scan.next();
        holds(&scan);
        scan.seek(target).unwrap();
        holds(&scan);
    }
    scan.reset();
    holds(&scan);
    scan.next();
    assert_eq!(scan.narrow(0..10), Err(Refusal::Window));
    holds(&scan);
    scan.narrow(3..8).unwrap();
    holds(&scan);
    let mut filter = Filter::new(scan, &[], &[Bound::Inclusive(31)]).unwrap();
    for wanted in [Some(25), Some(30), Some(31), None] {
        assert_eq!(filter.next(), Ok(wanted));
        assert_eq!(filter.current(), wanted);
        holds(filter.scan());
    }
    // past the bound the scan stands on an element, and the filter has none
    assert_eq!(filter.scan().current(), Some(40));
    filter.reset();
    holds(filter.scan());
}
