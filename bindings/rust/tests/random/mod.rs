//! Random columns and targets, for the tests of runs of calls.
use loftsplice::Column;

/// Random numbers, the same in every run of the tests.
pub struct Dice(pub u64);

impl Dice {
    pub fn below(&mut self, limit: u64) -> u64 {
        self.0 ^= self.0 << 13;
        self.0 ^= self.0 >> 7;
        self.0 ^= self.0 << 17;
        self.0 % limit
    }

    pub fn small(&mut self, limit: u64) -> usize {
        usize::try_from(self.below(limit)).unwrap()
    }

    pub fn between(&mut self, low: i64, high: i64) -> i64 {
        low + i64::try_from(self.below(u64::try_from(high - low).unwrap())).unwrap()
    }
}

/// Three lists.
pub struct Lists(pub Vec<i64>, Vec<u64>, Vec<i16>);

impl Lists {
    pub fn column(&self) -> Column<'_> {
        Column::new(&self.0, &self.1, &self.2).unwrap()
    }
}

/// So many runs, each of up to so many elements.
pub fn lists(dice: &mut Dice, rising: bool, runs: usize, elements: u64) -> Lists {
    let mut lists = Lists(Vec::new(), Vec::new(), Vec::new());
    let (mut end, mut last) = (0, -500);
    for _ in 0..runs {
        let count = 1 + dice.below(elements);
        let (start, step) = if rising {
            (last + dice.between(1, 9), dice.between(1, 7))
        } else {
            (dice.between(-900, 900), dice.between(-7, 8))
        };
        last = start + step * i64::try_from(count - 1).unwrap();
        end += count;
        lists.0.push(start);
        lists.1.push(end);
        lists.2.push(i16::try_from(step).unwrap());
    }
    lists
}

/// Columns of each kind: shorter than what is fetched in a call, longer, and of more runs than the least that is fetched.
pub fn each_kind(mut test: impl FnMut(&mut Dice, Column<'_>)) {
    let mut dice = Dice(20_260_731);
    for round in 0..60 {
        for rising in [true, false] {
            for (runs, elements) in [
                (0, 1),
                (1, 4),
                (3, 5),
                (6, 400),
                (9, 60),
                (300, 3),
                (700, 1),
            ] {
                if runs < 300 || round < 12 {
                    test(
                        &mut dice,
                        lists(&mut Dice(round + 1), rising, runs, elements).column(),
                    );
                }
            }
        }
    }
}

/// A target near the elements.
pub fn target(dice: &mut Dice) -> i64 {
    let near = dice.between(-600, 1200);
    if dice.below(40) == 0 {
        near * 1_000_000
    } else {
        near
    }
}
