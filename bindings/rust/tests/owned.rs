//! Records and owned columns, and each limit: met, and passed by one.
use std::ops::Range;

use loftsplice::{
    list, raw, write_record, Bound, Column, ColumnBuf, Filter, Record, Refusal, Variables,
};

/// No runs; 10 15 20 25, 30, 31, 40 140 240; the edges of i64.
fn columns() -> Vec<Column<'static>> {
    vec![
        Column::default(),
        Column::new(&[10, 30, 31, 40], &[4, 5, 6, 9], &[5, 0, -3, 100]).unwrap(),
        Column::new(&[i64::MIN, i64::MAX], &[2, 3], &[1, -1]).unwrap(),
    ]
}

#[test]
fn bytes_become_a_record() {
    for column in columns() {
        let mut bytes = write_record(column);
        let used = bytes.len();
        bytes.extend([1, 2, 3]);
        let record = Record::try_from(&bytes[..]).unwrap();
        assert_eq!((record.column(), record.used()), (column, used));
        assert_eq!(Record::try_from(&bytes[..used - 1]), Err(Refusal::Cut));
        assert_eq!(ColumnBuf::from(record), ColumnBuf::from(column));
    }
}

#[test]
fn an_owned_column_is_refilled_and_a_refusal_leaves_it() {
    let mut held = ColumnBuf::default();
    for column in columns().into_iter().chain(columns().into_iter().rev()) {
        let bytes = write_record(column);
        assert_eq!(held.read(&bytes), Ok(bytes.len()));
        assert_eq!(held.as_column(), column);
        assert_eq!(
            (&held).into_iter().collect::<Vec<_>>(),
            column.iter().collect::<Vec<_>>()
        );
        let mut kind = write_record(columns()[1]);
        kind[4] = 2;
        let mut reach = write_record(columns()[2]);
        reach[14..16].copy_from_slice(&(-1_i16).to_le_bytes());
        for (bad, refusal) in [
            (&bytes[..5], Refusal::Cut),
            (&kind, Refusal::Kind),
            (&reach, Refusal::Reach),
        ] {
            assert_eq!(held.read(bad), Err(refusal));
            assert_eq!(held.as_column(), column);
        }
        let (starts, ends, steps) = held.clone().into_lists();
        assert_eq!(ColumnBuf::new(starts, ends, steps).as_ref(), Ok(&held));
    }
    assert_eq!(
        ColumnBuf::new(vec![1], vec![], vec![1]),
        Err(Refusal::Shape)
    );
}

/// Room is made for the record, and not for what follows it.
#[test]
fn reading_takes_the_room_of_the_record() {
    let mut bytes = write_record(columns()[1]);
    let used = bytes.len();
    bytes.resize(raw::MAX_RECORD, 0xFF);
    let mut held = ColumnBuf::default();
    assert_eq!(held.read(&bytes), Ok(used));
    assert_eq!(held.as_column(), columns()[1]);
    let (starts, ends, steps) = held.into_lists();
    assert!(starts.capacity().max(ends.capacity()).max(steps.capacity()) < 16);
}

#[test]
fn the_limits_are_the_limits() {
    let runs = |number: usize| {
        (
            vec![0_i64; number],
            (1..=number as u64).collect::<Vec<_>>(),
            vec![0_i16; number],
        )
    };
    let (starts, ends, steps) = runs(raw::MAX_RUNS);
    let full = ColumnBuf::new(starts, ends, steps).unwrap();
    let bytes = write_record(full.as_column());
    assert_eq!(bytes.len(), raw::MAX_RECORD);
    assert_eq!(Record::try_from(&bytes[..]).map(ColumnBuf::from), Ok(full));
    let (starts, ends, steps) = runs(raw::MAX_RUNS + 1);
    assert_eq!(ColumnBuf::new(starts, ends, steps), Err(Refusal::Shape));
    assert!(Column::new(&[0], &[raw::MAX_ELEMENTS], &[0]).is_ok());
    assert_eq!(
        Column::new(&[0], &[raw::MAX_ELEMENTS + 1], &[0]),
        Err(Refusal::Ends)
    );

    let column = columns()[1];
    let many = [Bound::Inclusive(10); raw::MAX_BOUNDS + 1];
    let mut filter = Filter::new(column.scan(), &many[1..], &[]).unwrap();
    assert_eq!(Filter::new(column.scan(), &many, &[]), Err(Refusal::Bounds));
    let inputs = [None; raw::MAX_INPUTS + 1];
    let with = |inputs| Variables {
        inputs,
        ..Variables::default()
    };
    assert_eq!(filter.next_with(with(&inputs)), Err(Refusal::Bounds));
    assert_eq!(filter.next_with(with(&inputs[1..])), Ok(Some(10)));
    let windows = vec![0..0; raw::MAX_WINDOWS + 1];
    let mut counts = vec![0; windows.len()];
    let mut sum = |windows: &[Range<u64>]| list(column, windows, &[], &[], &mut [], &mut counts);
    assert_eq!(
        (sum(&windows[1..]), sum(&windows)),
        (Ok(0), Err(Refusal::Bounds))
    );
}
