//! Document 02, request 3: presence bitmaps, bit by bit.
use super::*;

/// "At most 524,288 records."
const MOST_RECORDS: u64 = 524_288;

/// "record i is bit i mod 8 of byte i / 8, lowest bit first, 1 for present": a digit of the byte written in twos.
pub fn present(bytes: &[u8], i: u64) -> bool {
    let byte = bytes[(i / 8) as usize];
    let digit = 2u8.pow((i % 8) as u32);
    byte / digit % 2 == 1
}

/// "gives, by Item 1's rule, the column of record numbers that are present, with how many ones it counted; bits past the record count are ignored".
/// Refused "14 COUNT for more records than that, before all others; on import then 11 for a short bitmap, 1 for over 4,096 runs, 10".
pub fn import(bytes: &[u8], count: u64, places: [usize; 3]) -> Outcome<Said> {
    refuse_if(count > MOST_RECORDS, COUNT)?;
    refuse_if((bytes.len() as u64) * 8 < count, CUT)?;
    let records: Vec<i64> = (0..count).filter(|&i| present(bytes, i)).map(|i| i as i64).collect();
    let runs = build(&records, places)?;
    Ok(Said::Imported { ones: records.len() as u64, runs })
}

/// "then 1, 2, 3, 7 for a column that doesn't rise, 15 RANGE for an element that is no record number".
pub fn records(column: &Column, count: u64) -> Outcome<()> {
    let length = column.check?;
    refuse_if(!column.rises(0, length), ORDER)?;
    // It rises, so the first element is the least and the last the greatest.
    let is_record = |i: u64| (0..i128::from(count)).contains(&i128::from(column.at(i)));
    refuse_if(length > 0 && !(is_record(0) && is_record(length - 1)), RANGE)
}

/// "writes the bitmap of a rising column, with zeros past the count in its last byte, and answers the bytes written". Refused 14, "on export then 1, 2, 3, 7
/// for a column that doesn't rise, 15 RANGE for an element that is no record number, 10".
pub fn export(column: &Column, count: u64, places: usize) -> Outcome<Said> {
    refuse_if(count > MOST_RECORDS, COUNT)?;
    records(column, count)?;
    let mut records = vec![false; count as usize];
    for r in 0..column.runs.ends.len() {
        for k in 0..column.runs.ends[r] - column.begin(r) {
            records[column.in_run(r, k) as usize] = true;
        }
    }
    // Eight records a byte, of which the first is the lowest digit; where records end, zeros.
    let bytes: Vec<u8> = records.chunks(8).map(|eight| eight.iter().rev().fold(0, |byte, &one| 2 * byte + u8::from(one))).collect();
    refuse_if(places < bytes.len(), ROOM)?;
    Ok(Said::Written(bytes))
}
