//! Reads a stored record and lists a window of its column: `window FILE START END`. Without arguments, a record made here.
use std::{env, error::Error, fs};

use loftsplice::{list, read_record, write_record, Column};

fn main() -> Result<(), Box<dyn Error>> {
    let given: Vec<String> = env::args().skip(1).collect();
    let (bytes, window) = match given.as_slice() {
        [] => {
            let column = Column::new(&[10, 30, 31, 40], &[4, 5, 6, 9], &[5, 0, -3, 100])?;
            (write_record(column), 3..8)
        }
        [file, start, end] => (fs::read(file)?, start.parse()?..end.parse()?),
        _ => return Err("usage: window [FILE START END]".into()),
    };
    let record = read_record(&bytes)?;
    let column = record.column();
    // a window has at most as many values as indices in the column
    let places = window.end.min(column.len()).saturating_sub(window.start);
    let (mut values, mut counts) = (vec![0; usize::try_from(places)?], [0]);
    let sum = list(
        column,
        std::slice::from_ref(&window),
        &[],
        &[],
        &mut values,
        &mut counts,
    )?;
    println!(
        "{} bytes, {} elements; {}..{} has {sum}: {values:?}",
        record.used(),
        column.len(),
        window.start,
        window.end
    );
    Ok(())
}
