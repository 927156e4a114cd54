//! Document 02, request 7: two reading profiles, record by record.
use super::bitmap::records;
use super::*;

/// "14 for a record count over 4,294,967,295".
const MOST_RECORDS: u64 = 4_294_967_295;

/// "16 PROFILE for any number but 1 and 2, then 14 for a record count over 4,294,967,295, both before 1; after 3 come 7, 15 for an element that is no record
/// number".
fn accept(column: &Column, profile: u8, count: u64) -> Outcome<()> {
    refuse_if(profile != 1 && profile != 2, PROFILE)?;
    refuse_if(count > MOST_RECORDS, COUNT)?;
    records(column, count)
}

/// "an optional field's column listed the records that carry it (profile 1). Newer machine software sends the shorter list, the records that leave it empty
/// (profile 2)."
fn does(column: &Column, profile: u8, record: u64) -> bool {
    let listed = (0..column.runs.ends.len()).any(|r| in_run(column, r, record));
    if profile == 1 { listed } else { !listed }
}

/// Whether a run has an offset at which the record is its element.
fn in_run(column: &Column, r: usize, record: u64) -> bool {
    let above = i128::from(record) - i128::from(column.runs.starts[r]);
    let length = column.runs.ends[r] - column.begin(r);
    let step = i128::from(column.runs.steps[r]);
    above == 0 || (length > 1 && above % step == 0 && (0..i128::from(length)).contains(&(above / step)))
}

/// "answer for one record whether it carries the field"; ".., 4 for a record not below it".
pub fn carries(column: &Column, profile: u8, count: u64, record: u64) -> Outcome<Said> {
    accept(column, profile, count)?;
    refuse_if(record >= count, INDEX)?;
    Ok(Said::Carries(does(column, profile, record)))
}

/// "list by window of record numbers those that do and those that don't"; ".., 5 for a window end above the record count, .., 10".
pub fn list(column: &Column, fields: &Fields) -> Outcome<Said> {
    let Fields { profile, count, start, end, carry, places } = *fields;
    accept(column, profile, count)?;
    refuse_if(end > count, WINDOW)?;
    let those: Vec<i64> = (start..end).filter(|&record| does(column, profile, record) == carry).map(|record| record as i64).collect();
    refuse_if(those.len() > places, ROOM)?;
    Ok(Said::Ran(those))
}
