//! The stored record, read and written, against a plain codec.
use crate::clock::{Against, Clock, work};
use crate::codec;
use crate::columns::{Runs, rising};
use loftsplice::raw;
use std::hint::black_box;

fn port_read(bytes: &[u8], to: &mut Runs) -> Result<(usize, usize), u32> {
    let read = raw::read_record(bytes, &mut to.starts, &mut to.ends, &mut to.steps);
    if read.refusal == 0 { Ok((read.runs as usize, read.used as usize)) } else { Err(read.refusal) }
}

fn plain_read(bytes: &[u8], to: &mut Runs) -> Result<(usize, usize), u32> {
    codec::read(bytes, &mut to.starts, &mut to.ends, &mut to.steps)
}

fn port_write(runs: &Runs, out: &mut [u8]) -> Result<usize, u32> {
    let written = raw::write_record(&runs.starts, &runs.ends, &runs.steps, out);
    if written.refusal == 0 { Ok(written.bytes as usize) } else { Err(written.refusal) }
}

/// Both codecs say and leave the same for the record cut at each byte, and with each byte changed.
fn alike(bytes: &[u8], places: &Runs) {
    let same = |bytes: &[u8]| {
        let mut to = [places.clone(), places.clone()];
        let [ours, plain] = &mut to;
        assert_eq!(port_read(bytes, ours), plain_read(bytes, plain));
        assert_eq!(ours, plain);
    };
    for at in 0..bytes.len() {
        same(&bytes[..at]);
        let mut other = bytes.to_vec();
        for value in [0, 1, 127, 255] {
            other[at] = value;
            same(&other);
        }
    }
}

fn race(clock: &mut Clock, runs: u64) {
    let column = rising(runs, runs * 64);
    let places = Runs { starts: vec![0; runs as usize], ends: vec![0; runs as usize], steps: vec![0; runs as usize] };
    let size = 6 + 14 * runs as usize;
    let mut outs = [vec![0; size], vec![0; size]];
    let [ours, plain] = &mut outs;
    assert_eq!((port_write(&column, ours), codec::write(&column, plain)), (Ok(size), Ok(size)));
    assert_eq!(ours, plain);
    let bytes = ours.clone();
    let mut tos = [places.clone(), places.clone()];
    let [mine, yours] = &mut tos;
    assert_eq!((port_read(&bytes, mine), plain_read(&bytes, yours)), (Ok((runs as usize, size)), Ok((runs as usize, size))));
    assert!(*mine == column && *yours == column);
    if runs == 16 {
        alike(&bytes, &places);
    }
    clock.race(
        "record read",
        format!("{runs} runs"),
        ("byte", size as u64),
        work(|| port_read(black_box(&bytes), black_box(mine))),
        vec![(Against { name: "plain codec with the same tests", target: None }, work(|| plain_read(black_box(&bytes), black_box(yours))))],
    );
    clock.race(
        "record write",
        format!("{runs} runs"),
        ("byte", size as u64),
        work(|| port_write(black_box(&column), black_box(ours))),
        vec![(Against { name: "plain codec with the same tests", target: None }, work(|| codec::write(black_box(&column), black_box(plain))))],
    );
}

pub fn measure(clock: &mut Clock) {
    for runs in [16, 256, 4096] {
        race(clock, runs);
    }
}
