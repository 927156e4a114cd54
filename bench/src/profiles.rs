//! The records of a window that carry a field, and those that are filled, against a plain Rust that writes the same lists.
use crate::clock::{Against, Clock, work};
use crate::columns::Runs;
use crate::fields;
use crate::page::grouped;
use loftsplice::raw;
use std::hint::black_box;

const RECORDS: u64 = 65_536;
const PLAIN: Against = Against { name: "plain Rust, by stretches", target: Some(1.25) };

/// A window of a column, by profile 1.
struct Job {
    runs: Runs,
    count: u64,
    start: u64,
    end: u64,
}

#[inline(never)]
fn port(carry: bool, job: &Job, out: &mut [u64]) -> Result<u64, u32> {
    let Runs { starts, ends, steps } = &job.runs;
    let call = if carry { raw::carrying } else { raw::filled };
    let records = call(raw::LISTS_CARRYING, job.count, starts, ends, steps, job.start, job.end, out);
    if records.refusal == 0 { Ok(records.written) } else { Err(records.refusal) }
}

fn rust(carry: bool, job: &Job, out: &mut [u64]) -> Result<u64, u32> {
    fields::list(carry, job.count, (&job.runs.starts, &job.runs.ends, &job.runs.steps), job.start, job.end, out)
}

/// Both say and leave the same in some windows of the column, into enough places and into too few.
fn alike(job: &Job) {
    let last = job.runs.len().checked_sub(1).map_or(0, |last| job.runs.at(last) as u64);
    for (start, end) in (0..40).map(|k| (k * 7, k * 11)).chain([(0, last), (last, last + 1), (1, job.count + 1), (last / 2, last / 2 + 70)]) {
        for count in [job.count, last, last + 1] {
            let asked = Job { runs: job.runs.clone(), count, start, end };
            for carry in [true, false] {
                for room in [end.saturating_sub(start) as usize, 3, 0] {
                    let mut outs = [vec![77; room], vec![77; room]];
                    let [ours, theirs] = &mut outs;
                    assert_eq!(port(carry, &asked, ours), rust(carry, &asked, theirs));
                    assert_eq!(ours, theirs);
                }
            }
        }
    }
}

fn race(clock: &mut Clock, job: &Job, word: &str) {
    alike(job);
    let window = job.end - job.start;
    for (carry, group) in [(true, "profile carrying"), (false, "profile filled")] {
        let mut outs = [vec![0; window as usize], vec![0; window as usize]];
        let [ours, theirs] = &mut outs;
        let written = port(carry, job, ours).expect("accepted");
        assert_eq!(rust(carry, job, theirs), Ok(written));
        assert_eq!(ours, theirs);
        let size = format!("{} of {} records, {word}", grouped(written), grouped(window));
        clock.race(
            group,
            size,
            ("record", written.max(1)),
            work(|| port(carry, black_box(job), black_box(ours))),
            vec![(PLAIN, work(|| rust(carry, black_box(job), black_box(theirs))))],
        );
    }
}

/// Runs of so many elements, each of the next step in turn, so far apart; as many as fit.
fn column(steps: &[i16], elements: u64, apart: i64) -> Runs {
    let mut made = Runs::default();
    let mut start = 3;
    for step in steps.iter().cycle() {
        let last = start + i64::from(*step) * (elements as i64 - 1);
        if last >= RECORDS as i64 - 1 || made.starts.len() == 4096 {
            return made;
        }
        made.push(start, *step, elements);
        start = last + apart;
    }
    made
}

pub fn measure(clock: &mut Clock) {
    for (runs, word) in [
        (column(&[1], RECORDS - 10, 1), "one run of step 1"),
        (column(&[2], RECORDS / 2 - 10, 1), "one run of step 2"),
        (column(&[7], RECORDS / 7 - 10, 1), "one run of step 7"),
        (column(&[1], 200, 200), "200 carried and 200 not, in turn"),
        (column(&[1, 2, 3, 4, 5], 64, 20), "runs of 64, steps 1 to 5"),
        (column(&[1, 2, 5], 4, 8), "runs of 4, steps 1, 2, 5"),
        (column(&[1], 1, 1000), "single records 1,000 apart"),
    ] {
        race(clock, &Job { runs, count: RECORDS, start: 0, end: RECORDS }, word);
    }
    // A short window of a long column: what the test of the whole column costs.
    let runs = column(&[1, 2, 3, 4, 5], 6, 9);
    race(clock, &Job { runs, count: RECORDS, start: 30_000, end: 30_100 }, "a window of runs of 6");
}
