//! The stored record as a Rust programmer reads and writes it: the same tests in the same order, arrays untouched by a refusal.
use crate::columns::Runs;
use crate::plain;

/// The run count and the bytes used, or a refusal's number.
#[inline(never)]
pub fn read(bytes: &[u8], starts: &mut [i64], ends: &mut [u64], steps: &mut [i16]) -> Result<(usize, usize), u32> {
    let (head, rest) = bytes.split_first_chunk::<4>().ok_or(11u32)?;
    let length = u32::from_le_bytes(*head) as usize;
    if !(2..=57_346).contains(&length) {
        return Err(13);
    }
    let (kind, body) = rest.get(..length).ok_or(11u32)?.split_at(2);
    if kind != [1, 0] {
        return Err(12);
    }
    let (runs, left) = body.as_chunks::<14>();
    if !left.is_empty() {
        return Err(13);
    }
    let n = runs.len();
    if starts.len() < n || ends.len() < n || steps.len() < n {
        return Err(10);
    }
    test(runs)?;
    let mut last = 0;
    for (((run, start), end), step) in runs.iter().zip(starts).zip(ends).zip(steps) {
        let (value, by, length) = split(run);
        last += length;
        (*start, *end, *step) = (value, last, by);
    }
    Ok((n, 4 + length))
}

/// Refusals 2 and 3 of a record's runs.
fn test(runs: &[[u8; 14]]) -> Result<(), u32> {
    let (mut last, mut outside) = (0u64, false);
    for run in runs {
        let (value, by, length) = split(run);
        if length == 0 {
            return Err(2);
        }
        last += length;
        outside |= value.overflowing_add(i64::from(by) * (length - 1) as i64).1;
    }
    if last > 4_294_967_295 {
        return Err(2);
    }
    if outside { Err(3) } else { Ok(()) }
}

fn split(run: &[u8; 14]) -> (i64, i16, u64) {
    let start = i64::from_le_bytes(run[..8].try_into().expect("8 bytes"));
    let step = i16::from_le_bytes(run[8..10].try_into().expect("2 bytes"));
    (start, step, u64::from(u32::from_le_bytes(run[10..].try_into().expect("4 bytes"))))
}

/// The bytes written, or a refusal's number.
#[inline(never)]
pub fn write(Runs { starts, ends, steps }: &Runs, out: &mut [u8]) -> Result<usize, u32> {
    match plain::check(starts, ends, steps) {
        0 => {}
        refusal => return Err(refusal),
    }
    let body = 14 * ends.len();
    let out = out.get_mut(..6 + body).ok_or(10u32)?;
    out[..4].copy_from_slice(&(2 + body as u32).to_le_bytes());
    out[4..6].copy_from_slice(&[1, 0]);
    let mut last = 0;
    for (((run, start), &end), step) in out[6..].as_chunks_mut::<14>().0.iter_mut().zip(starts).zip(ends).zip(steps) {
        run[..8].copy_from_slice(&start.to_le_bytes());
        run[8..10].copy_from_slice(&step.to_le_bytes());
        run[10..].copy_from_slice(&((end - last) as u32).to_le_bytes());
        last = end;
    }
    Ok(6 + body)
}
