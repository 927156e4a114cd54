//! Presence bitmaps: beside building from the numbers of the present records one by one, both ways round, and what a refusal leaves.
use loftsplice::{raw, Column, ColumnBuf, Refusal};

mod random;

use random::{each_kind, target, Dice};

/// The records that are present, bit by bit.
fn present(bytes: &[u8], count: u64) -> impl Iterator<Item = i64> + '_ {
    let records = 0..i64::try_from(count).unwrap();
    records.filter(|i| bytes[usize::try_from(i / 8).unwrap()] >> (i % 8) & 1 == 1)
}

/// The bytes that so many records need.
fn need(count: u64) -> usize {
    usize::try_from(count.div_ceil(8)).unwrap()
}

/// A bitmap in which records are present by chance, or stretches of them are all alike.
fn bitmap(dice: &mut Dice, bytes: usize) -> Vec<u8> {
    let mut made = Vec::new();
    while made.len() < bytes {
        let stretch = 1 + dice.small(20);
        let kind = dice.below(6);
        made.extend((0..stretch).map(|_| match kind {
            0 => 0,
            1 => 0xFF,
            2 => 0x55,
            3 => 1 << dice.below(8),
            _ => u8::try_from(dice.below(256)).unwrap(),
        }));
    }
    made.truncate(bytes);
    made
}

#[test]
fn imported_is_built_from_the_numbers_and_goes_back() {
    let mut dice = Dice(20_260_803);
    for round in 0..3000 {
        let count = dice.below(if round % 10 == 0 { 4000 } else { 200 });
        let more = dice.small(3);
        let bytes = bitmap(&mut dice, need(count) + more);
        let column = ColumnBuf::from_bitmap(&bytes, count).unwrap();
        assert_eq!(
            Ok(&column),
            ColumnBuf::from_values(present(&bytes, count)).as_ref()
        );
        let mut again = ColumnBuf::new(vec![3], vec![9], vec![1]).unwrap();
        assert_eq!(
            again.read_bitmap(&bytes, count),
            Ok(column.as_column().len())
        );
        assert_eq!(again, column);
        let mut exported = vec![0xAA; bytes.len() + 1];
        assert_eq!(
            column.as_column().write_bitmap(count, &mut exported),
            Ok(need(count))
        );
        assert_eq!(
            Ok(&exported[..need(count)]),
            column.as_column().to_bitmap(count).as_deref()
        );
        assert!(exported[need(count)..].iter().all(|byte| *byte == 0xAA));
        assert!(present(&exported, count).eq(present(&bytes, count)));
        // zeros past the count
        let whole = need(count) as u64 * 8;
        assert!(present(&exported, whole).eq(present(&bytes, count)));
    }
}

#[test]
fn any_column_is_exported_or_refused_as_its_elements_say() {
    let mut accepted = 0;
    each_kind(|dice, column| {
        let elements: Vec<i64> = column.iter().collect();
        // Record numbers from the first element on.
        let first = column.first().unwrap_or(0) + dice.between(0, 2);
        let starts: Vec<i64> = column.starts().iter().map(|start| start - first).collect();
        let moved = Column::new(&starts, column.ends(), column.steps()).unwrap();
        let numbers: Vec<i64> = elements.iter().map(|element| element - first).collect();
        let top = numbers.iter().max().map_or(0, |top| top + 1);
        let near = top + dice.between(-1, 9);
        let count = [near, near, near, target(dice)][dice.small(4)];
        let count = u64::try_from(count).unwrap_or(0);
        let rises = numbers.windows(2).all(|pair| pair[0] < pair[1]);
        let inside = |number: &i64| u64::try_from(*number).is_ok_and(|number| number < count);
        let expected = if count > raw::MAX_RECORDS {
            Err(Refusal::Count)
        } else if !rises {
            Err(Refusal::Order)
        } else if numbers.iter().all(inside) {
            Ok(())
        } else {
            Err(Refusal::Range)
        };
        let bitmap = moved.to_bitmap(count);
        assert_eq!(bitmap.as_ref().map(|_| ()), expected.as_ref().copied());
        let Ok(bitmap) = bitmap else { return };
        accepted += 1;
        // "Import after export gives the same elements and is never refused 1"
        let imported = ColumnBuf::from_bitmap(&bitmap, count).unwrap();
        assert!(imported.iter().eq(numbers));
        assert!(imported.as_column().starts().len() <= starts.len());
    });
    assert!(accepted > 100, "{accepted}");
}

#[test]
fn the_most_records_and_one_more() {
    let most = raw::MAX_RECORDS;
    let full = vec![0xFF; need(most + 8)];
    let column = ColumnBuf::from_bitmap(&full, most).unwrap();
    assert_eq!(column.clone().into_lists(), (vec![0], vec![most], vec![1]));
    assert_eq!(
        column.as_column().to_bitmap(most),
        Ok(full[..need(most)].into())
    );
    for count in [most + 1, u64::MAX] {
        assert_eq!(ColumnBuf::from_bitmap(&full, count), Err(Refusal::Count));
        assert_eq!(ColumnBuf::from_bitmap(&[], count), Err(Refusal::Count));
        assert_eq!(column.as_column().to_bitmap(count), Err(Refusal::Count));
        assert_eq!(
            column.as_column().write_bitmap(count, &mut []),
            Err(Refusal::Count)
        );
    }
    let last = ColumnBuf::from_bitmap(&full[1..], most).unwrap();
    assert_eq!(last.as_column().len(), most);
    let mut far = vec![0; need(most)];
    far[need(most) - 1] = 0x80;
    let far = ColumnBuf::from_bitmap(&far, most).unwrap();
    assert!(far.iter().eq([i64::try_from(most).unwrap() - 1]));
}

/// So many runs of two or three, each of its own step: the next run's first record does not join.
fn runs(count: usize) -> Vec<u8> {
    // 1 1 0 1 1 0 0 0: two and two, the second pair at another step than the gap before it
    vec![0b0001_1011; count / 2]
}

#[test]
fn the_most_runs_and_one_more() {
    let bytes = runs(raw::MAX_RUNS);
    let count = 8 * bytes.len() as u64;
    let column = ColumnBuf::from_bitmap(&bytes, count).unwrap();
    assert_eq!(column.as_column().starts().len(), raw::MAX_RUNS);
    let mut more = bytes.clone();
    more.extend([1, 0]);
    let mut kept = column.clone();
    assert_eq!(
        ColumnBuf::from_bitmap(&more, count + 16),
        Err(Refusal::Shape)
    );
    assert_eq!(kept.read_bitmap(&more, count + 16), Err(Refusal::Shape));
    assert_eq!(kept, column);
    // a record that is past the count is no run more
    assert_eq!(ColumnBuf::from_bitmap(&more, count), Ok(column));
}

#[test]
fn a_refused_import_writes_nothing() {
    let bytes = [0xE5, 0x01];
    for (room, count, refusal) in [
        ([1, 2, 2], 10, 10),
        ([2, 1, 2], 10, 10),
        ([2, 2, 1], 10, 10),
        ([2, 2, 2], 17, 11),
        ([0, 0, 0], 17, 11),
        ([0, 0, 0], 524_289, 14),
    ] {
        let (mut starts, mut ends, mut steps) = ([7; 3], [7; 3], [7; 3]);
        let imported = raw::import(
            &bytes,
            count,
            &mut starts[..room[0]],
            &mut ends[..room[1]],
            &mut steps[..room[2]],
        );
        let refused = raw::Imported {
            refusal,
            runs: 0,
            ones: 0,
        };
        assert_eq!(
            (imported, starts, ends, steps),
            (refused, [7; 3], [7; 3], [7; 3])
        );
    }
    // 1 before 10
    let many = runs(raw::MAX_RUNS + 2);
    let count = 8 * many.len() as u64;
    let refused = raw::import(&many, count, &mut [], &mut [], &mut []);
    assert_eq!(refused.refusal, 1);
    assert_eq!(raw::import(&[], 0, &mut [], &mut [], &mut []).refusal, 0);
    assert_eq!(ColumnBuf::from_bitmap(&bytes, 0), Ok(ColumnBuf::default()));
}

#[test]
fn exports_are_refused_in_their_order_and_then_write_nothing() {
    let falls: [(&[i64], &[u64], &[i16]); 4] = [
        (&[5, 3], &[1, 2], &[0, 0]),
        (&[5, -3], &[1, 2], &[0, 0]), // below 0 as well
        (&[99, 3], &[1, 2], &[0, 0]), // above the count as well
        (&[3], &[2], &[0]),
    ];
    let cases = falls.map(|column| (column, 10, 9, 7)).into_iter().chain([
        ((&[][..], &[1][..], &[0][..]), 524_289, 9, 14),
        ((&[][..], &[1][..], &[0][..]), 524_288, 9, 1),
        ((&[-1, 0], &[1, 1], &[0, 0]), 10, 9, 2),
        ((&[i64::MAX], &[2], &[1]), 10, 9, 3),
        ((&[-1], &[1], &[0]), 10, 9, 15),
        ((&[i64::MIN], &[2], &[1]), 10, 0, 15),
        ((&[10], &[1], &[0]), 10, 9, 15),
        ((&[8], &[2], &[2]), 10, 9, 15),
        ((&[i64::MAX], &[1], &[0]), 10, 9, 15),
        ((&[0], &[1], &[0]), 0, 9, 15),
        ((&[9], &[1], &[0]), 10, 1, 10),
        ((&[], &[], &[]), 1, 0, 10),
    ]);
    for ((starts, ends, steps), count, room, refusal) in cases {
        let mut out = [0xAA; 9];
        let exported = raw::export(starts, ends, steps, count, &mut out[..room]);
        assert_eq!(exported, raw::Exported { refusal, bytes: 0 }, "{starts:?}");
        assert_eq!(out, [0xAA; 9]);
    }
    assert_eq!(Column::default().to_bitmap(0), Ok(vec![]));
    assert_eq!(Column::default().to_bitmap(9), Ok(vec![0, 0]));
}
