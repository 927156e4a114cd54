//! What a Rust programmer writes for presence bitmaps: 64 records at a time, `trailing_zeros` from one present record to the next, whole bytes where a run has
//! step 1. All is tried before anything is written.
use crate::plain;

const MOST: u64 = 524_288;

/// The records of a bitmap below the count, 64 a word, and a last word of those that are left, with none past the count.
#[inline(always)]
fn words(bytes: &[u8], count: u64) -> (impl Iterator<Item = u64>, u64) {
    let whole = (count / 64) as usize;
    let words = bytes[..8 * whole].chunks_exact(8).map(|eight| u64::from_le_bytes(eight.try_into().expect("eight")));
    let rest = &bytes[8 * whole..count.div_ceil(8) as usize];
    let last = rest.iter().rev().fold(0, |word, &byte| word << 8 | u64::from(byte));
    (words, last & ((1 << (count % 64)) - 1))
}

/// The run that is open, by the rule of request 1; no elements: none is.
#[derive(Clone, Copy, Default)]
struct Open {
    start: u64,
    last: u64,
    step: u64,
    elements: u64,
}

impl Open {
    /// Takes the records of a word, from a number on, and hands on each run that ends there; whether to go on.
    #[inline(always)]
    fn read(&mut self, base: u64, mut word: u64, take: &mut impl FnMut(Open) -> bool) -> bool {
        if word == u64::MAX && self.step == 1 && self.last + 1 == base {
            self.last += 64;
            self.elements += 64;
            return true;
        }
        while word != 0 {
            let record = base + u64::from(word.trailing_zeros());
            word &= word - 1;
            let apart = record - self.last;
            if self.elements == 1 && apart < 32_768 {
                self.step = apart;
            } else if self.elements < 2 || apart != self.step {
                if self.elements > 0 && !take(*self) {
                    return false;
                }
                *self = Open { start: record, ..Open::default() };
            }
            self.last = record;
            self.elements += 1;
        }
        true
    }
}

/// Hands on each run of the present records, in order, until one is not taken.
#[inline(always)]
fn each_run(bytes: &[u8], count: u64, mut take: impl FnMut(Open) -> bool) {
    let (words, last) = words(bytes, count);
    let (mut run, mut base) = (Open::default(), 0);
    for word in words {
        if !run.read(base, word, &mut take) {
            return;
        }
        base += 64;
    }
    if run.read(base, last, &mut take) && run.elements > 0 {
        take(run);
    }
}

/// The runs of the present records, and how many these are; refused 14, 11, 1, 10.
#[inline(never)]
pub fn import(bytes: &[u8], count: u64, starts: &mut [i64], ends: &mut [u64], steps: &mut [i16]) -> Result<(usize, u64), u32> {
    if count > MOST {
        return Err(14);
    }
    if (bytes.len() as u64) < count.div_ceil(8) {
        return Err(11);
    }
    let mut runs = 0;
    each_run(bytes, count, |_| {
        runs += 1;
        runs <= 4096
    });
    if runs > 4096 {
        return Err(1);
    }
    if starts.len() < runs || ends.len() < runs || steps.len() < runs {
        return Err(10);
    }
    let (mut at, mut end) = (0, 0);
    each_run(bytes, count, |run| {
        end += run.elements;
        (starts[at], ends[at], steps[at]) = (run.start as i64, end, run.step as i16);
        at += 1;
        true
    });
    let (words, last) = words(bytes, count);
    let ones: u32 = words.map(u64::count_ones).sum();
    Ok((runs, u64::from(ones + last.count_ones())))
}

/// Whether a checked column rises within the record numbers, or why it is refused: 7, 15.
#[inline(always)]
pub fn placed(starts: &[i64], ends: &[u64], steps: &[i16], count: u64) -> Result<(), u32> {
    if !plain::rises(starts, ends, steps, 0, ends.last().copied().unwrap_or(0)) {
        return Err(7);
    }
    let Some(run) = starts.len().checked_sub(1) else { return Ok(()) };
    let begin = if run == 0 { 0 } else { ends[run - 1] };
    let last = starts[run] + i64::from(steps[run]) * (ends[run] - begin - 1) as i64;
    // It rises: what lies between lies within.
    if starts[0] < 0 || last >= count as i64 { Err(15) } else { Ok(()) }
}

/// The records from one up to another, by whole bytes, and a mask at either end.
#[inline(always)]
fn span(out: &mut [u8], from: u64, to: u64) {
    let (first, last) = ((from / 8) as usize, (to / 8) as usize);
    let (above, below) = (0xFF << (from % 8), (1 << (to % 8)) - 1u8);
    if first == last {
        out[first] |= above & below;
        return;
    }
    out[first] |= above;
    out[first + 1..last].fill(0xFF);
    if below != 0 {
        out[last] |= below;
    }
}

/// The bitmap of a column; refused 14, 1, 2, 3, 7, 15, 10.
#[inline(never)]
pub fn export(starts: &[i64], ends: &[u64], steps: &[i16], count: u64, out: &mut [u8]) -> Result<usize, u32> {
    if count > MOST {
        return Err(14);
    }
    match plain::check(starts, ends, steps) {
        0 => placed(starts, ends, steps, count)?,
        refusal => return Err(refusal),
    }
    let bytes = count.div_ceil(8) as usize;
    let out = out.get_mut(..bytes).ok_or(10u32)?;
    out.fill(0);
    let mut begin = 0;
    for ((&start, &end), &step) in starts.iter().zip(ends).zip(steps) {
        let (from, elements) = (start as u64, end - begin);
        if step == 1 {
            span(out, from, from + elements);
        } else {
            let mut record = from;
            for _ in 0..elements {
                out[(record / 8) as usize] |= 1 << (record % 8);
                record += step as u64;
            }
        }
        begin = end;
    }
    Ok(bytes)
}
