//! Several people list one window of a column, each a part of it, from threads of their own and in no set order; their lists, joined, are the list of one who
//! does it alone: `parts [PEOPLE]`, 4 without an argument.
use std::{env, error::Error, ops::Range, slice, thread};

use loftsplice::{list_in_mode, Bound, Column, Mode};

/// A refusal, or a window longer than memory.
type Wrong = Box<dyn Error + Send + Sync>;

/// What a window lists under the bounds, into an output of one's own.
fn listed(
    mode: Mode,
    column: Column<'_>,
    window: Range<u64>,
    (lower, upper): (&[Bound], &[Bound]),
) -> Result<Vec<i64>, Wrong> {
    let places = usize::try_from(window.end.saturating_sub(window.start))?;
    let (mut values, mut counts) = (vec![0; places], [0]);
    let windows = slice::from_ref(&window);
    let sum = list_in_mode(
        mode,
        column,
        windows,
        lower,
        upper,
        &mut values,
        &mut counts,
    )?;
    values.truncate(usize::try_from(sum)?);
    Ok(values)
}

fn main() -> Result<(), Wrong> {
    let people: u64 = env::args().nth(1).map_or(Ok(4), |n| n.parse())?;
    // 10 15 20 25, 30, 31, 40 140 240, and 250 253 .. 3247
    let column = Column::new(
        &[10, 30, 31, 40, 250],
        &[4, 5, 6, 9, 1009],
        &[5, 0, -3, 100, 3],
    )?;
    let window = 1..column.len();
    let bounds: (&[Bound], &[Bound]) = (
        &[Bound::Exclusive(20)],
        &[Bound::Inclusive(3001), Bound::Exclusive(3001)],
    );
    for mode in [Mode::InclusiveWins, Mode::ExclusiveWins] {
        let middle = |k: u64| window.start + (window.end - window.start) * k / people.max(1);
        let lists: Vec<Result<Vec<i64>, Wrong>> = thread::scope(|scope| {
            let threads: Vec<_> = (0..people.max(1))
                .map(|k| (middle(k), middle(k + 1)))
                .map(|(from, to)| scope.spawn(move || listed(mode, column, from..to, bounds)))
                .collect();
            threads
                .into_iter()
                .map(|thread| thread.join().expect("no part panics"))
                .collect()
        });
        let lists = lists.into_iter().collect::<Result<Vec<_>, _>>()?;
        let lengths: Vec<String> = lists.iter().map(|part| part.len().to_string()).collect();
        let joined = lists.concat();
        if joined != listed(mode, column, window.clone(), bounds)? {
            return Err("the parts, joined, are not the whole".into());
        }
        println!(
            "{mode:?}: {} = {} values, {} to {}",
            lengths.join(" + "),
            joined.len(),
            joined[0],
            joined[joined.len() - 1]
        );
    }
    Ok(())
}
