//! Columns read by profile: beside asking the elements record by record, both lists beside each other, and what a refusal leaves.
use std::collections::HashSet;

use loftsplice::{raw, Column, ColumnBuf, Fields, Profile, Refusal};

mod random;

use random::{each_kind, target, Dice};

/// 3 4 5 6, 8 10 12, 20, 25 32
const LISTS: (&[i64], &[u64], &[i16]) = (&[3, 8, 20, 25], &[4, 7, 8, 10], &[1, 2, -9, 7]);

fn column() -> Column<'static> {
    Column::new(LISTS.0, LISTS.1, LISTS.2).unwrap()
}

/// The two lists of a window: each record in the one that it belongs to by the elements, in order, from one call into places that are there and from one
/// that makes them.
fn lists_are_the_window(fields: &Fields<'_>, elements: &HashSet<u64>, start: u64, end: u64) {
    let listed = fields.profile() == Profile::Carrying;
    let (carry, fill): (Vec<u64>, Vec<u64>) =
        (start..end).partition(|record| elements.contains(record) == listed);
    assert_eq!(fields.carrying(start..end).as_ref(), Ok(&carry));
    assert_eq!(fields.filled(start..end).as_ref(), Ok(&fill));
    let window = usize::try_from(end.saturating_sub(start)).unwrap();
    assert_eq!(carry.len() + fill.len(), window);
    let mut out = vec![u64::MAX; window + 1];
    assert_eq!(fields.carrying_into(start..end, &mut out), Ok(carry.len()));
    assert_eq!(out[..carry.len()], carry);
    assert!(out[carry.len()..].iter().all(|place| *place == u64::MAX));
    assert_eq!(
        fields.filled_into(start..end, &mut out[..fill.len()]),
        Ok(fill.len())
    );
    assert_eq!(out[..fill.len()], fill);
}

#[test]
fn every_window_of_a_small_column() {
    let elements: HashSet<u64> = column()
        .iter()
        .map(|element| u64::try_from(element).unwrap())
        .collect();
    for profile in [Profile::Carrying, Profile::Empty] {
        for count in [33, 35, 4_294_967_295] {
            let fields = column().fields(profile, count).unwrap();
            for end in 0..=count.min(40) {
                for start in 0..45 {
                    lists_are_the_window(&fields, &elements, start, end);
                }
            }
            for record in 0..count.min(60) {
                let carries = elements.contains(&record) == (profile == Profile::Carrying);
                assert_eq!(fields.carries(record), Ok(carries));
            }
        }
    }
}

#[test]
fn any_column_is_read_or_refused_as_its_elements_say() {
    let mut accepted = 0;
    each_kind(|dice, column| {
        // Record numbers from the first element on.
        let first = column.first().unwrap_or(0) + dice.between(0, 2);
        let starts: Vec<i64> = column.starts().iter().map(|start| start - first).collect();
        let moved = Column::new(&starts, column.ends(), column.steps()).unwrap();
        let numbers: Vec<i64> = moved.iter().collect();
        let top = numbers.iter().max().map_or(0, |top| top + 1);
        let near = top + dice.between(-1, 9);
        let count = [near, near, near, target(dice), i64::MAX][dice.small(5)];
        let count = u64::try_from(count).unwrap_or(0);
        let rises = numbers.windows(2).all(|pair| pair[0] < pair[1]);
        let inside = |number: &i64| u64::try_from(*number).is_ok_and(|number| number < count);
        let expected = if count > raw::MAX_PROFILE_RECORDS {
            Err(Refusal::Count)
        } else if !rises {
            Err(Refusal::Order)
        } else if numbers.iter().all(inside) {
            Ok(())
        } else {
            Err(Refusal::Range)
        };
        for profile in [Profile::Carrying, Profile::Empty] {
            let fields = moved.fields(profile, count);
            assert_eq!(fields.as_ref().map(|_| ()), expected.as_ref().copied());
            let Ok(fields) = fields else { continue };
            accepted += 1;
            let elements = numbers
                .iter()
                .map(|number| u64::try_from(*number).unwrap())
                .collect();
            windows(dice, &fields, &elements);
        }
    });
    assert!(accepted > 300, "{accepted}");
}

/// Some windows, and all records where they are few; each record by itself.
fn windows(dice: &mut Dice, fields: &Fields<'_>, elements: &HashSet<u64>) {
    let few = fields.count().min(3000);
    lists_are_the_window(fields, elements, 0, few);
    for _ in 0..5 {
        let (one, two) = (dice.below(few + 1), dice.below(few + 1));
        lists_are_the_window(fields, elements, one, two);
        if one < few {
            let carries = elements.contains(&one) == (fields.profile() == Profile::Carrying);
            assert_eq!(fields.carries(one), Ok(carries));
        }
    }
}

#[test]
fn a_bitmap_of_the_records_that_carry_the_field() {
    let mut dice = Dice(20_261_116);
    for _ in 0..500 {
        let count = dice.below(300);
        let bytes: Vec<u8> = (0..count.div_ceil(8))
            .map(|_| u8::try_from(dice.below(256)).unwrap())
            .collect();
        let column = ColumnBuf::from_bitmap(&bytes, count).unwrap();
        let one = column.as_column().fields(Profile::Carrying, count).unwrap();
        let two = column.as_column().fields(Profile::Empty, count).unwrap();
        for record in 0..count {
            let bit = bytes[usize::try_from(record / 8).unwrap()] >> (record % 8) & 1 == 1;
            assert_eq!(one.carries(record), Ok(bit));
            assert_eq!(two.carries(record), Ok(!bit));
        }
        // parts of the window, joined, are the whole
        let middle = dice.below(count + 1);
        let parts = [one.filled(..middle).unwrap(), one.filled(middle..).unwrap()];
        assert_eq!(Ok(parts.concat()), one.filled(..));
        assert_eq!(two.carrying(..), one.filled(..));
        assert_eq!(two.filled(..), one.carrying(..));
    }
}

#[test]
fn the_most_records_and_one_more() {
    let most = raw::MAX_PROFILE_RECORDS;
    let ends = [most - 2];
    let all_but_two = Column::new(&[1], &ends, &[1]).unwrap();
    let fields = all_but_two.fields(Profile::Carrying, most).unwrap();
    assert_eq!(fields.filled(..), Ok(vec![0, most - 1]));
    assert_eq!(fields.carrying(most - 3..), Ok(vec![most - 3, most - 2]));
    assert_eq!(fields.carries(most - 1), Ok(false));
    assert_eq!(fields.carries(most), Err(Refusal::Index));
    assert_eq!(fields.carries(u64::MAX), Err(Refusal::Index));
    assert_eq!(fields.filled(..=most), Err(Refusal::Window));
    assert_eq!(fields.filled(..=u64::MAX), Err(Refusal::Window));
    assert_eq!(fields.carrying(9..u64::MAX), Err(Refusal::Window));
    assert_eq!(fields.filled(u64::MAX..most), Ok(vec![]));
    assert_eq!(
        all_but_two.fields(Profile::Carrying, most + 1),
        Err(Refusal::Count)
    );
    assert_eq!(
        all_but_two.fields(Profile::Carrying, most - 2),
        Err(Refusal::Range)
    );
}

#[test]
fn nothing_is_filled_or_everything() {
    let none = Column::default();
    assert_eq!(
        none.fields(Profile::Carrying, 4).unwrap().filled(..),
        Ok(vec![0, 1, 2, 3])
    );
    assert_eq!(
        none.fields(Profile::Empty, 4).unwrap().filled(..),
        Ok(vec![])
    );
    assert_eq!(
        none.fields(Profile::Empty, 0).unwrap().carrying(..),
        Ok(vec![])
    );
    assert_eq!(
        Column::new(&[0], &[1], &[0])
            .unwrap()
            .fields(Profile::Empty, 0),
        Err(Refusal::Range)
    );
}

/// Each case has what the next is refused for as well; the outputs stay.
#[test]
fn refused_in_their_order() {
    let over = raw::MAX_PROFILE_RECORDS + 1;
    let low = &[i64::MIN][..];
    let cases = [
        (0, over, low, &[][..], -1, 11, 0, [16; 2]),
        (3, over, low, &[], -1, 11, 0, [16; 2]),
        (257, 10, &[0], &[1], 1, 1, 9, [16; 2]),
        (u32::MAX, 10, &[0], &[1], 1, 1, 9, [16; 2]),
        (1, over, low, &[], -1, 11, 0, [14; 2]),
        (2, u64::MAX, low, &[], -1, 11, 0, [14; 2]),
        (1, 10, low, &[], -1, 11, 0, [1; 2]),
        (2, 10, low, &[0], -1, 11, 0, [2; 2]),
        (1, 10, low, &[2], -1, 11, 0, [3; 2]),
        (2, 10, &[-1], &[2], -1, 11, 0, [7; 2]),
        (1, 10, &[-1], &[2], 1, 11, 0, [15; 2]),
        (2, 10, &[9], &[2], 1, 11, 0, [15; 2]),
        (1, 10, &[4], &[2], 1, 11, 0, [4, 5]),
        (1, 10, &[4], &[2], 1, 10, 0, [4, 10]),
        (1, 10, &[4], &[2], 1, 9, 9, [0, 0]),
    ];
    for (profile, count, starts, ends, step, asked, room, [single, list]) in cases {
        let one = raw::carries(profile, count, starts, ends, &[step], asked);
        assert_eq!((one.refusal, one.carries), (single, 0), "{profile} {count}");
        for call in [raw::carrying, raw::filled] {
            let mut out = [77; 9];
            let records = call(
                profile,
                count,
                starts,
                ends,
                &[step],
                0,
                asked,
                &mut out[..room],
            );
            assert_eq!(records.refusal, list, "{profile} {count}");
            assert!(list == 0 || (records.written, out) == (0, [77; 9]));
        }
    }
}
