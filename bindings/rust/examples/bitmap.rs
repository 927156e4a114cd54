//! Presence bitmaps as Apache Arrow has them: `bitmap import COUNT` reads the bytes of one from standard input and writes the numbers of the records that are
//! present, a line each; `bitmap export COUNT` reads such lines, which rise, and writes the bytes.
use std::{
    env,
    error::Error,
    io::{read_to_string, stdin, stdout, Read, Write},
};

use loftsplice::ColumnBuf;

fn main() -> Result<(), Box<dyn Error>> {
    let given: Vec<String> = env::args().skip(1).collect();
    let (word, count) = match given.as_slice() {
        [word, count] => (word.as_str(), count.parse()?),
        _ => return Err("usage: bitmap import|export COUNT".into()),
    };
    let mut out = stdout().lock();
    match word {
        "import" => {
            let mut bytes = Vec::new();
            stdin().read_to_end(&mut bytes)?;
            let column = ColumnBuf::from_bitmap(&bytes, count)?;
            for record in &column {
                writeln!(out, "{record}")?;
            }
        }
        "export" => {
            let lines = read_to_string(stdin())?;
            let records = lines
                .lines()
                .map(str::parse)
                .collect::<Result<Vec<i64>, _>>()?;
            let column = ColumnBuf::try_from(records.as_slice())?;
            out.write_all(&column.as_column().to_bitmap(count)?)?;
        }
        _ => return Err("usage: bitmap import|export COUNT".into()),
    }
    Ok(())
}
