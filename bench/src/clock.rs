//! Interleaved samples: in each round every side runs once, for about a millisecond, so that what slows the machine slows all of them. A ratio is taken
//! in each round; given are the median of the ratios and their quartiles.
use std::hint::black_box;
use std::time::Instant;

/// What one side does, so many times.
pub type Work<'a> = Box<dyn FnMut(u64) + 'a>;

/// One operation as such work; what it gives counts as used.
pub fn work<'a, R>(mut operation: impl FnMut() -> R + 'a) -> Work<'a> {
    Box::new(move |times| {
        for _ in 0..times {
            black_box(operation());
        }
    })
}

/// What the port's time is measured against, and the most that it may be of that time.
pub struct Against {
    pub name: &'static str,
    pub target: Option<f64>,
}

/// One line of the table: the port against one baseline.
pub struct Row {
    pub group: &'static str,
    pub size: String,
    pub against: &'static str,
    pub target: Option<f64>,
    /// What one of is timed, and how many of them an operation does.
    pub unit: &'static str,
    /// Nanoseconds a unit, medians.
    pub port: f64,
    pub rust: f64,
    /// The port's time divided by the baseline's: lower quartile, median, upper quartile.
    pub ratio: [f64; 3],
}

impl Row {
    /// Whether the median meets the target.
    pub fn met(&self) -> Option<bool> {
        self.target.map(|most| self.ratio[1] <= most)
    }
}

pub struct Clock {
    pub rounds: usize,
    /// Only what is named so is timed; all is, by the empty text.
    pub only: String,
    pub rows: Vec<Row>,
}

const SAMPLE: f64 = 1_000_000.0;

impl Clock {
    /// Times the port, then each baseline, round by round. `units` is how many units one operation does.
    pub fn race<'a>(
        &mut self,
        group: &'static str,
        size: String,
        (unit, units): (&'static str, u64),
        port: Work<'a>,
        baselines: Vec<(Against, Work<'a>)>,
    ) {
        if !format!("{group}, {size}").contains(&self.only) {
            return;
        }
        let (names, works): (Vec<_>, Vec<_>) = baselines.into_iter().unzip();
        let mut sides: Vec<Work> = std::iter::once(port).chain(works).collect();
        let counts: Vec<u64> = sides.iter_mut().map(calibrated).collect();
        let mut times = vec![Vec::new(); sides.len()];
        for round in 0..self.rounds {
            // Every other round backwards, so that no side always follows the same one.
            for turn in 0..sides.len() {
                let at = if round % 2 == 0 { turn } else { sides.len() - 1 - turn };
                times[at].push(timed(&mut sides[at], counts[at]) / counts[at] as f64 / units as f64);
            }
        }
        for (at, against) in names.into_iter().enumerate() {
            let rust = &times[at + 1];
            let ratios: Vec<f64> = times[0].iter().zip(rust).map(|(p, r)| p / r).collect();
            let row = Row {
                group,
                size: size.clone(),
                against: against.name,
                target: against.target,
                unit,
                port: quartiles(&times[0])[1],
                rust: quartiles(rust)[1],
                ratio: quartiles(&ratios),
            };
            eprintln!("{group}, {size}, against {}: {:.3}", row.against, row.ratio[1]);
            self.rows.push(row);
        }
    }
}

/// Nanoseconds of so many operations.
fn timed(work: &mut Work, count: u64) -> f64 {
    let start = Instant::now();
    work(count);
    start.elapsed().as_nanos() as f64
}

/// How many operations take about a sample's time; it warms the side up as well.
fn calibrated(work: &mut Work) -> u64 {
    let mut count = 1;
    loop {
        let took = timed(work, count);
        if took >= SAMPLE / 4.0 {
            return ((count as f64 * SAMPLE / took).round() as u64).max(1);
        }
        count *= 2;
    }
}

/// Lower quartile, median, upper quartile.
fn quartiles(samples: &[f64]) -> [f64; 3] {
    let mut sorted = samples.to_vec();
    sorted.sort_by(f64::total_cmp);
    [1, 2, 3].map(|q| sorted[(sorted.len() - 1) * q / 4])
}
