//! Document 02, request 11: exact totals, by adding the elements one after the other in i128; a long stretch of a run by its first and last element.
use super::*;

/// Elements of a run's stretch that are added one by one; those of a longer stretch are as many times the mean of its first and last.
const ONE_BY_ONE: u64 = 1000;

/// "the element count, the least, the greatest and the sum", the sum as it is.
#[derive(Clone, Copy, Default)]
struct Exact {
    count: u64,
    edges: Option<(i128, i128)>,
    sum: i128,
}

impl Exact {
    /// The totals of elements that lie between two that are among them.
    fn with(self, count: u64, (least, greatest): (i128, i128), sum: i128) -> Exact {
        let edges = self.edges.map_or((least, greatest), |(l, g)| (l.min(least), g.max(greatest)));
        Exact { count: self.count + count, edges: Some(edges), sum: self.sum + sum }
    }

    /// The same with those of a window; "an empty window has count 0, sum 0, and neither least nor greatest".
    fn and(self, window: &Exact) -> Exact {
        window.edges.map_or(self, |edges| self.with(window.count, edges, window.sum))
    }

    /// "two whole numbers, high and low, with sum = high x 4,294,967,296 + low, low from 0 up to 4,294,967,295, high an i64"; 18 "where the sum .. has no such
    /// high".
    fn parted(&self) -> Outcome<Total> {
        let high = i64::try_from(self.sum.div_euclid(4_294_967_296)).map_err(|_| TOTAL)?;
        let edge = |value: i128| i64::try_from(value).expect("REACH was tried");
        let edges = self.edges.map(|(least, greatest)| (edge(least), edge(greatest)));
        Ok(Total { count: self.count, edges, high, low: self.sum.rem_euclid(4_294_967_296) as u64 })
    }
}

/// Those of a window whose end is not above the length.
fn window(column: &Column, start: u64, end: u64) -> Exact {
    let mut exact = Exact::default();
    for (r, first, last) in column.touched(start, end) {
        let count = last - first + 1;
        if count > ONE_BY_ONE {
            let (a, b) = (column.in_run(r, first), column.in_run(r, last));
            exact = exact.with(count, (a.min(b), a.max(b)), i128::from(count) * (a + b) / 2);
            continue;
        }
        for value in (first..=last).map(|k| column.in_run(r, k)) {
            exact = exact.with(1, (value, value), value);
        }
    }
    exact
}

/// "for up to 256 windows of one volume column .., per window and over all". Refused 1, 2, 3, then 8 and 5 as the batch listing is, "18 TOTAL where the sum
/// over all windows has no such high, after 5 and before 10".
pub fn totals(column: &Column, from: &[u64], to: &[u64], places: [usize; 5]) -> Outcome<Said> {
    let length = column.check?;
    refuse_if(from.len() > 256 || from.len() != to.len(), BOUNDS)?;
    refuse_if(to.iter().any(|&end| end > length), WINDOW)?;
    let windows: Vec<Exact> = from.iter().zip(to).map(|(&start, &end)| window(column, start, end)).collect();
    let all = windows.iter().fold(Exact::default(), Exact::and).parted()?;
    refuse_if(places.iter().any(|&p| p < windows.len()), ROOM)?;
    // One window's sum has a high: fewer than 2^32 elements, each from -2^63 up to 2^63 - 1.
    Ok(Said::Totalled { all, windows: windows.iter().map(Exact::parted).collect::<Outcome<_>>()? })
}
