//! Presence bitmaps to be imported, and columns to be exported as such: all small ones, those at the limits, and random ones of several densities.
use crate::calls::*;
use crate::compare::{Bench, Tally, alone};
use crate::exhaustive::{Level, columns};
use crate::lists::rooms;
use crate::model;
use crate::random::Dice;

const MOST: u64 = 524_288;
/// Small columns that rise, fall, meet and lie apart.
const SMALL: Level = Level { lengths: 3, steps: &[-1, 0, 1, 3], gaps: &[-1, 0, 1, 9], runs: 2, depth: 0, every: 1 };

/// Every bitmap of up to two bytes and every so-manyth of three, with every count that they have bytes for and one that they have not; every small column
/// with every small count; and the limits.
pub fn everything(every: usize, tally: &mut Tally) {
    for width in 0..=3 {
        let each = if width == 3 { every } else { 1 };
        for number in (0..1u32 << (8 * width)).step_by(each) {
            for count in 0..=8 * width as u64 + 1 {
                let bytes = &number.to_le_bytes()[..width];
                if width < 2 {
                    there_and_back(bytes, count, tally);
                } else {
                    plainly_there_and_back(bytes, count, tally);
                }
            }
        }
    }
    for mut runs in columns(SMALL) {
        // The first start is 5; from 0, and from below.
        for down in [5, 1] {
            runs.starts.iter_mut().for_each(|start| *start -= down);
            for count in 0..=30 {
                export(&runs, count, tally);
            }
        }
    }
    limits(tally);
}

/// The most records and one more, of which a bitmap has the bytes, one less and one more; 4,096 runs and one more; records just a step apart, and further.
fn limits(tally: &mut Tally) {
    let most = MOST as usize / 8;
    let hundredth = Dice(1).bitmap(most + 1, 1);
    for filled in [vec![0; most + 1], vec![0xFF; most + 1], vec![0x55; most + 1], hundredth] {
        for (length, count) in [(most - 1, MOST), (most, MOST), (most + 1, MOST), (most + 1, MOST + 1), (most, MOST - 1), (most - 1, MOST - 7), (0, u64::MAX)] {
            there_and_back(&filled[..length], count, tally);
        }
    }
    for runs in [4095, 4096, 4097, 5000] {
        there_and_back(&many(runs), 4 * runs as u64 + 4, tally);
    }
    for apart in [32_766, 32_767, 32_768, 32_769] {
        there_and_back(&bitmap_of(&[3, 3 + apart]), MOST / 8, tally);
        there_and_back(&bitmap_of(&[0, apart, 2 * apart, 2 * apart + 1]), MOST / 4, tally);
    }
    for (start, step, length) in [(0, 1, MOST), (0, 1, MOST + 1), (1, 1, MOST), (0, 32_767, 17), (MOST as i64 - 1, 0, 1), (MOST as i64, 0, 1), (-1, 1, 1)] {
        for count in [MOST - 1, MOST, MOST + 1] {
            export(&Runs::of(&[(start, step, length)]), count, tally);
        }
    }
}

/// A bitmap of so many runs: two records of every four, and from each second pair to the next another step than within.
fn many(runs: usize) -> Vec<u8> {
    let pairs = [0b0001_1011].repeat(runs / 2);
    [&pairs[..], &[if runs % 2 == 1 { 0b11 } else { 0 }]].concat()
}

/// The bitmap in which these records are present.
fn bitmap_of(records: &[usize]) -> Vec<u8> {
    let mut bytes = vec![0; MOST as usize / 8];
    for record in records {
        bytes[record / 8] += 1 << (record % 8);
    }
    bytes
}

/// Imported, and the column that it gives exported again, into outputs that are right, longer, and short.
fn there_and_back(bytes: &[u8], count: u64, tally: &mut Tally) {
    let none = Runs::default();
    let column = model::Column::new(&none);
    if let Some(runs) = import(&mut Bench::new(&column, &[]), bytes, count, tally) {
        export(&runs, count, tally);
    }
}

/// The same, into outputs that are long enough: of most small bitmaps.
fn plainly_there_and_back(bytes: &[u8], count: u64, tally: &mut Tally) {
    let none = Runs::default();
    let column = model::Column::new(&none);
    let said = alone(&mut Bench::new(&column, &[]), &Call::Import(bytes.to_vec(), count, [8 * bytes.len(); 3]), tally);
    if let Said::Imported { runs, .. } = said {
        let column = model::Column::new(&runs);
        alone(&mut Bench::new(&column, &[]), &Call::Export(count, bytes.len()), tally);
    }
}

/// The bitmap into arrays that are right, longer, and short.
fn import(bench: &mut Bench, bytes: &[u8], count: u64, tally: &mut Tally) -> Option<Runs> {
    let mut asked = |places: [usize; 3]| alone(bench, &Call::Import(bytes.to_vec(), count, places), tally);
    let most = count.min(4096) as usize;
    let runs = match asked([most; 3]) {
        Said::Imported { runs, .. } => Some(runs),
        _ => None,
    };
    for places in rooms(runs.as_ref().map_or(most, |runs| runs.starts.len())) {
        asked(places);
    }
    runs
}

/// A column into outputs that are right, longer, and short.
fn export(runs: &Runs, count: u64, tally: &mut Tally) {
    let column = model::Column::new(runs);
    export_of(&mut Bench::new(&column, &[]), count, tally);
}

fn export_of(bench: &mut Bench, count: u64, tally: &mut Tally) {
    let need = need(count);
    for places in [need, need + 3, need.saturating_sub(1), 0] {
        alone(bench, &Call::Export(count, places), tally);
    }
}

/// Bytes that so many records need, of those that are not refused.
pub fn need(count: u64) -> usize {
    count.min(MOST).div_ceil(8) as usize
}

impl Dice {
    /// So many bytes in which that many of a hundred bits are ones.
    fn bitmap(&mut self, bytes: usize, of_hundred: u64) -> Vec<u8> {
        let mut byte = || (0..8).fold(0, |byte, _| 2 * byte + u8::from(self.below(100) < of_hundred));
        (0..bytes).map(|_| byte()).collect()
    }
}

/// A bitmap and a count: stretches of one density after another; bits past the count are as any others. Now and then it is short, or longer.
pub fn random(d: &mut Dice) -> (Vec<u8>, u64) {
    let most = if d.once_in(300) { MOST } else { d.pick(&[20, 100, 100, 600, 600, 9000]) };
    let count = if d.once_in(20) { most } else { d.below(most) };
    let bytes = need(count).saturating_add_signed(d.pick(&[0, 0, 0, 0, 0, 1, 3, -1]));
    let mut made = Vec::new();
    while made.len() < bytes {
        let stretch = 1 + d.below(2 + bytes as u64 / 2) as usize;
        let of_hundred = d.pick(&[0, 1, 10, 50, 90, 99, 100]);
        made.extend(if d.once_in(6) { vec![d.pick(&[0x55, 0x11, 0x49, 0x80]); stretch] } else { d.bitmap(stretch, of_hundred) });
    }
    made.truncate(bytes);
    (made, count)
}

/// The arrays moved so that the first run starts at a small number, and counts that let all elements in, all but one, and others.
pub fn moved(d: &mut Dice, runs: &Runs) -> (Runs, Vec<u64>) {
    let mut moved = runs.clone();
    let by = runs.starts.first().copied().unwrap_or(0).wrapping_sub(d.pick(&[0, 0, 1, 9, 1000, -1]));
    moved.starts.iter_mut().for_each(|start| *start = start.wrapping_sub(by));
    let column = model::Column::new(&moved);
    let last = column.check().ok().and_then(|length| u64::try_from(column.at(length.checked_sub(1)?)).ok()).unwrap_or(0);
    let counts = [last, last.wrapping_add(1), last.wrapping_add(2 + d.below(20)), d.below(40), MOST, MOST + 1];
    (moved, counts.to_vec())
}

/// A random bitmap and the column that it gives; a random column as it is, and moved to small numbers.
pub fn round(d: &mut Dice, bench: &mut Bench, tally: &mut Tally) {
    let (bytes, count) = random(d);
    if let Some(runs) = import(bench, &bytes, count, tally) {
        for count in [count, count.saturating_sub(1), count + 1] {
            export(&runs, count, tally);
        }
    }
    export_of(bench, d.pick(&[0, 9, MOST, MOST + 1, u64::MAX]), tally);
    let (moved, counts) = moved(d, bench.column.runs);
    for count in counts {
        export(&moved, count, tally);
    }
}
