//! The calls that write outputs, which are filled beforehand: places beyond the answer, and all after a refusal, must hold that still.
#[cfg(feature = "listing")]
use super::{Desk, number};
use crate::calls::*;
use loftsplice::raw;

/// A run of calls into so many places, filled beforehand, which gives refusal and count; places beyond its values, and all after a refusal, must hold that
/// still.
pub(super) fn ran(places: usize, run: impl FnOnce(&mut [i64]) -> (u32, u64)) -> Said {
    let mut out = vec![OUT; places];
    let (refusal, count) = run(&mut out);
    let count = count as usize;
    assert!(refusal == 0 || count == 0, "values and a refusal");
    untouched(&out[count..], OUT);
    out.truncate(count);
    if refusal == 0 { Said::Ran(out) } else { Said::Refused(refusal) }
}

#[cfg(feature = "listing")]
pub(super) fn listed(runs: &Runs, l: &Listing, desk: &mut Desk) -> Said {
    desk.constants(0, &l.lower);
    desk.constants(1, &l.upper);
    let mut out = vec![OUT; l.room];
    let mut counts = vec![COUNT; l.counts];
    let (values, kinds) = (&desk.numbers, &desk.kinds);
    let answer = raw::list(
        &runs.starts, &runs.ends, &runs.steps, &l.from, &l.to, number(l.wins), &values[0], &kinds[0], &values[1], &kinds[1], &mut out, &mut counts,
    );
    let (filled, windows) = if answer.refusal == 0 { (answer.sum as usize, l.from.len()) } else { (0, 0) };
    untouched(&out[filled..], OUT);
    untouched(&counts[windows..], COUNT);
    match answer.refusal {
        0 => Said::Listed { sum: answer.sum, counts: counts[..windows].to_vec(), out: out[..filled].to_vec() },
        n => Said::Refused(n),
    }
}

#[cfg(feature = "record")]
pub(super) fn read(bytes: &[u8], places: [usize; 3]) -> Said {
    let mut used = 0;
    let call = |starts: &mut [i64], ends: &mut [u64], steps: &mut [i16]| {
        let answer = raw::read_record(bytes, starts, ends, steps);
        used = answer.used;
        (answer.refusal, answer.runs)
    };
    match filled(places, call) {
        Ok(runs) => Said::Read { used, runs },
        Err(refusal) => Said::Refused(refusal),
    }
}

pub(super) fn built(values: &[i64], places: [usize; 3]) -> Said {
    let call = |starts: &mut [i64], ends: &mut [u64], steps: &mut [i16]| {
        let answer = raw::build(values, starts, ends, steps);
        (answer.refusal, answer.runs)
    };
    filled(places, call).map_or_else(Said::Refused, Said::Built)
}

pub(super) fn imported(bytes: &[u8], count: u64, places: [usize; 3]) -> Said {
    let mut ones = 0;
    let call = |starts: &mut [i64], ends: &mut [u64], steps: &mut [i16]| {
        let answer = raw::import(bytes, count, starts, ends, steps);
        assert!(answer.refusal == 0 || answer.ones == 0, "ones and a refusal");
        ones = answer.ones;
        (answer.refusal, answer.runs)
    };
    match filled(places, call) {
        Ok(runs) => Said::Imported { ones, runs },
        Err(refusal) => Said::Refused(refusal),
    }
}

/// The runs that a call, which gives refusal and run count, writes into three arrays.
fn filled(places: [usize; 3], call: impl FnOnce(&mut [i64], &mut [u64], &mut [i16]) -> (u32, u64)) -> Result<Runs, u32> {
    let mut starts = vec![i64::from(PLACE); places[0]];
    let mut ends = vec![PLACE as u64; places[1]];
    let mut steps = vec![PLACE; places[2]];
    let (refusal, runs) = call(&mut starts, &mut ends, &mut steps);
    let n = if refusal == 0 { runs as usize } else { 0 };
    assert!(refusal == 0 || runs == 0, "runs and a refusal");
    untouched(&starts[n..], i64::from(PLACE));
    untouched(&ends[n..], PLACE as u64);
    untouched(&steps[n..], PLACE);
    starts.truncate(n);
    ends.truncate(n);
    steps.truncate(n);
    if refusal == 0 { Ok(Runs { starts, ends, steps }) } else { Err(refusal) }
}

#[cfg(feature = "record")]
pub(super) fn written(runs: &Runs, places: usize) -> Said {
    as_bytes(places, |out| {
        let answer = raw::write_record(&runs.starts, &runs.ends, &runs.steps, out);
        (answer.refusal, answer.bytes)
    })
}

pub(super) fn exported(runs: &Runs, count: u64, places: usize) -> Said {
    as_bytes(places, |out| {
        let answer = raw::export(&runs.starts, &runs.ends, &runs.steps, count, out);
        (answer.refusal, answer.bytes)
    })
}

/// The records of a window, each of which is a record number and so no more than an i64.
pub(super) fn records(runs: &Runs, f: &Fields) -> Said {
    let mut out = vec![RECORD; f.places];
    let call = if f.carry { raw::carrying } else { raw::filled };
    let answer = call(u32::from(f.profile), f.count, &runs.starts, &runs.ends, &runs.steps, f.start, f.end, &mut out);
    let n = answer.written as usize;
    assert!(answer.refusal == 0 || n == 0, "records and a refusal");
    untouched(&out[n..], RECORD);
    out.truncate(n);
    let records = out.into_iter().map(|record| i64::try_from(record).expect("a record"));
    if answer.refusal == 0 { Said::Ran(records.collect()) } else { Said::Refused(answer.refusal) }
}

/// The bytes that a call, which gives refusal and their number, writes.
fn as_bytes(places: usize, call: impl FnOnce(&mut [u8]) -> (u32, u64)) -> Said {
    let mut out = vec![BYTE; places];
    let (refusal, bytes) = call(&mut out);
    let n = if refusal == 0 { bytes as usize } else { 0 };
    assert!(refusal == 0 || bytes == 0, "bytes and a refusal");
    untouched(&out[n..], BYTE);
    out.truncate(n);
    if refusal == 0 { Said::Written(out) } else { Said::Refused(refusal) }
}

/// Of an empty window the places of least and greatest must hold what they held, too.
pub(super) fn totalled(runs: &Runs, from: &[u64], to: &[u64], places: [usize; 5]) -> Said {
    let (mut counts, mut lows) = (vec![COUNT; places[0]], vec![COUNT; places[4]]);
    let (mut leasts, mut greatests, mut highs) = (vec![OUT; places[1]], vec![OUT; places[2]], vec![OUT; places[3]]);
    let answer =
        raw::totals(&runs.starts, &runs.ends, &runs.steps, from, to, &mut counts, &mut leasts, &mut greatests, &mut highs, &mut lows);
    let n = if answer.refusal == 0 { from.len() } else { 0 };
    untouched(&counts[n..], COUNT);
    untouched(&leasts[n..], OUT);
    untouched(&greatests[n..], OUT);
    untouched(&highs[n..], OUT);
    untouched(&lows[n..], COUNT);
    assert!(answer.found == 1 || (answer.least, answer.greatest) == (0, 0), "a least or greatest where there is none");
    if answer.refusal != 0 {
        assert!((answer.found, answer.count, answer.high, answer.low) == (0, 0, 0, 0), "a total and a refusal");
        return Said::Refused(answer.refusal);
    }
    let edges = (answer.found == 1).then_some((answer.least, answer.greatest));
    let window = |i: usize| {
        let edges = (counts[i] > 0).then_some((leasts[i], greatests[i]));
        assert!(edges.is_some() || (leasts[i], greatests[i]) == (OUT, OUT), "a least or greatest of an empty window was written");
        Total { count: counts[i], edges, high: highs[i], low: lows[i] }
    };
    Said::Totalled { all: Total { count: answer.count, edges, high: answer.high, low: answer.low }, windows: (0..n).map(window).collect() }
}

fn untouched<T: PartialEq + std::fmt::Debug>(places: &[T], held: T) {
    if let Some(at) = places.iter().position(|p| *p != held) {
        panic!("a place beyond the answer was written: {at} from its end holds {:?}", places[at]);
    }
}
