//! What a Rust programmer writes for the same work: slices zipped, no bounds test in a loop.

/// Refusals 1, 2, 3, or 0: one loop, left at once for a bad end; reach goes into a flag, since a bad end further on is refused first. The ends rise, so
/// one look at the last is enough for their limit.
#[inline(never)]
pub fn check(starts: &[i64], ends: &[u64], steps: &[i16]) -> u32 {
    if starts.len() != ends.len() || steps.len() != ends.len() || ends.len() > 4096 {
        return 1;
    }
    let mut last = 0u64;
    let mut outside = false;
    for ((&start, &end), &step) in starts.iter().zip(ends).zip(steps) {
        if end <= last {
            return 2;
        }
        // Exact where the ends keep their limit: the product is below 2^47 then.
        outside |= start.overflowing_add(i64::from(step).wrapping_mul((end - last - 1) as i64)).1;
        last = end;
    }
    if last > 4_294_967_295 {
        return 2;
    }
    if outside { 3 } else { 0 }
}

/// Whether a window of a checked column rises, run by run.
#[inline(never)]
pub fn rises(starts: &[i64], ends: &[u64], steps: &[i16], start: u64, end: u64) -> bool {
    if end <= start {
        return true;
    }
    let first = ends.partition_point(|&e| e <= start);
    let last = ends.partition_point(|&e| e < end);
    let mut from = if first == 0 { 0 } else { ends[first - 1] };
    let mut index = start;
    let runs = starts[first..last].iter().zip(&steps[first..last]).zip(&ends[first..last]);
    for (((&value, &step), &beyond), &next) in runs.zip(&starts[first + 1..=last]) {
        if step <= 0 && index + 1 < beyond {
            return false;
        }
        if value + i64::from(step) * (beyond - from - 1) as i64 >= next {
            return false;
        }
        from = beyond;
        index = beyond;
    }
    end <= index + 1 || steps[last] > 0
}

/// The elements from one index up to another, run by run with a running value; nothing is checked.
#[inline(never)]
pub fn fill(starts: &[i64], ends: &[u64], steps: &[i16], first: u64, beyond: u64, out: &mut [i64]) {
    let mut run = ends.partition_point(|&end| end <= first);
    let mut index = first;
    let mut rest = out;
    while index < beyond {
        let from = if run == 0 { 0 } else { ends[run - 1] };
        let end = ends[run].min(beyond);
        let (part, more) = rest.split_at_mut((end - index) as usize);
        let step = i64::from(steps[run]);
        let mut value = starts[run] + step * (index - from) as i64;
        for place in part {
            *place = value;
            value = value.wrapping_add(step);
        }
        rest = more;
        index = end;
        run += 1;
    }
}

/// What a seek of each rising target in turn gives: the run is walked on to, then one division, or none. How many there are, up to the first none.
#[inline(never)]
pub fn merge(starts: &[i64], ends: &[u64], steps: &[i16], targets: &[i64], out: &mut [i64]) -> usize {
    merged(starts, ends, steps, targets, out, |target| target, |_| false)
}

/// The same of a filter, from one value up to and with another.
#[inline(never)]
pub fn merge_within(starts: &[i64], ends: &[u64], steps: &[i16], targets: &[i64], (low, high): (i64, i64), out: &mut [i64]) -> usize {
    merged(starts, ends, steps, targets, out, |target| target.max(low), |value| value > high)
}

#[inline(always)]
fn merged(
    starts: &[i64],
    ends: &[u64],
    steps: &[i16],
    targets: &[i64],
    out: &mut [i64],
    raised: impl Fn(i64) -> i64,
    beyond: impl Fn(i64) -> bool,
) -> usize {
    let (mut run, mut first, mut at) = (0, 0, 0);
    for (count, (&target, place)) in targets.iter().zip(&mut *out).enumerate() {
        let target = raised(target);
        while target > starts[run] + i64::from(steps[run]) * (ends[run] - first - 1) as i64 {
            first = ends[run];
            run += 1;
            at = 0;
            if run == ends.len() {
                return count;
            }
        }
        let (start, step) = (starts[run], i64::from(steps[run]));
        let over = (target as u64).wrapping_sub(start as u64);
        let offset = match step {
            _ if target <= start => 0,
            1 => over,
            _ => (over + step as u64 - 1) / step as u64,
        };
        at = offset.max(at);
        let value = start + step * at as i64;
        if beyond(value) {
            return count;
        }
        *place = value;
    }
    targets.len()
}

/// The runs of a list by the rule of request 1, into three lists: counted first, so that nothing is written where it is refused 1 or 10.
#[inline(never)]
pub fn build(values: &[i64], starts: &mut [i64], ends: &mut [u64], steps: &mut [i16]) -> Result<usize, u32> {
    if values.len() > 4_294_967_295 {
        return Err(1);
    }
    let mut count = 0;
    let mut rest = values;
    while !rest.is_empty() {
        if count == 4096 {
            return Err(1);
        }
        rest = &rest[first_run(rest).0..];
        count += 1;
    }
    if starts.len() < count || ends.len() < count || steps.len() < count {
        return Err(10);
    }
    let mut from = 0;
    for ((start, end), place) in starts.iter_mut().zip(ends).zip(steps).take(count) {
        let (length, step) = first_run(&values[from..]);
        *start = values[from];
        from += length;
        *end = from as u64;
        *place = step;
    }
    Ok(count)
}

/// Length and step of the run that a list begins with.
#[inline(always)]
fn first_run(values: &[i64]) -> (usize, i16) {
    let step = values.get(1).and_then(|second| i16::try_from(second.checked_sub(values[0])?).ok());
    let Some(step) = step else { return (1, 0) };
    let other = values.windows(2).position(|pair| pair[1].checked_sub(pair[0]) != Some(i64::from(step)));
    (other.map_or(values.len(), |at| at + 1), step)
}
