//! Plays the cases of a corpus against the model, the port and, where a case is marked `both`, the Rust.
use crate::calls::*;
use crate::compare::caught;
use crate::corpus::{Case, Expected, after};
use crate::model::Sieve;
use crate::{model, port, rust};

/// What came of it.
#[derive(Default, Debug)]
pub struct Counts {
    pub cases: u64,
    pub lines: u64,
    pub port: u64,
    pub rust: u64,
    /// Lines of scans and filters whose answer stands without the scan after the call: only the answer is compared there.
    pub stateless: u64,
    pub differences: u64,
}

/// One side's answer to one line, with the scan and filter after it as far as that side shows them.
struct Got {
    said: Said,
    scan: Option<Scan>,
    mode: Option<Mode>,
}

fn got(said: Said, scan: Scan, sieve: Option<Sieve>) -> Got {
    Got { said, scan: Some(scan), mode: sieve.map(|s| s.mode) }
}

/// Plays one case; `tell` gets the text of each difference.
pub fn play(case: &Case, counts: &mut Counts, tell: &mut impl FnMut(String)) {
    counts.cases += 1;
    let column = model::Column::new(&case.runs);
    let mut by_model = by_model(case, &column);
    let mut by_port = if port::PRESENT { by_port(case, &column) } else { Vec::new() };
    let mut by_rust = if case.both && rust::PRESENT { by_rust(case, &column, &by_model) } else { Vec::new() };
    by_port.resize_with(case.lines.len(), || None);
    by_rust.resize_with(case.lines.len(), || None);
    for (i, line) in case.lines.iter().enumerate() {
        let Some(expected) = &line.expected else {
            continue;
        };
        counts.lines += 1;
        counts.stateless += u64::from(crate::corpus::has_state(&line.call, &expected.said) && expected.scan.is_none());
        for (who, answer) in [("model", by_model[i].take()), ("port", by_port[i].take()), ("Rust", by_rust[i].take())] {
            let Some(answer) = answer else {
                continue;
            };
            counts.port += u64::from(who == "port");
            counts.rust += u64::from(who == "Rust");
            let wrong = match &answer {
                Ok(g) if agrees(expected, g, who == "Rust") => continue,
                Ok(g) => text(&g.said, g.scan, g.mode),
                Err(why) => format!("a panic: {why}"),
            };
            counts.differences += 1;
            let wanted = text(&expected.said, expected.scan, expected.mode);
            tell(format!("case {} line {} ({}): {}\n  expected {wanted}\n  {who} got {wrong}", case.number, line.at, case.kind, line.call));
        }
    }
}

fn text(said: &Said, scan: Option<Scan>, mode: Option<Mode>) -> String {
    let sieve = mode.map(|mode| Sieve { mode, ..Sieve::OPEN });
    scan.map_or(said.to_string(), |s| format!("{said}{}", after(&s, sieve.as_ref())))
}

/// The answer, and the scan and filter after it as far as the file has them. The Rust shows a scan's index, not whether it is fresh or ended.
fn agrees(expected: &Expected, got: &Got, rust: bool) -> bool {
    let index = |s: &Scan| match s.state {
        State::At(i) => Some(i),
        _ => None,
    };
    let scan = match (&expected.scan, &got.scan) {
        (Some(e), Some(g)) if rust => index(e) == index(g) && e.value == g.value,
        (Some(e), Some(g)) => e == g,
        (None, _) => true,
        (Some(_), None) => false,
    };
    let mode = match (&expected.mode, &got.mode) {
        // A made-up filter, Before, over a scan set by hand may stand in the file or not.
        (None, Some(_)) | (Some(Mode::Before), None) => true,
        (e, g) => e == g,
    };
    expected.said == got.said && scan && mode
}

type Answers = Vec<Option<Result<Got, String>>>;

/// A scan put together by hand, and the filter over it: from a `set` on every line starts from them.
#[derive(Clone, Copy)]
struct Hand {
    scan: Scan,
    wins: Wins,
    mode: Mode,
}

impl Hand {
    /// Takes a `set` or `fset`; whether the line is one.
    fn took(hand: &mut Option<Hand>, call: &Call) -> bool {
        match (call, hand.as_mut()) {
            (Call::Set(scan), _) => *hand = Some(Hand { scan: *scan, wins: Wins::Inclusive, mode: Mode::Before }),
            (Call::FilterSet(wins, mode), Some(h)) => (h.wins, h.mode) = (*wins, *mode),
            _ => return false,
        }
        true
    }
}

fn by_model<'a>(case: &'a Case, column: &'a model::Column<'a>) -> Answers {
    let mut session = model::Session::new(column);
    let mut hand = None;
    let each = |line: &crate::corpus::Line| {
        if Hand::took(&mut hand, &line.call) {
            return Some(Ok(Got { said: Said::Ok, scan: hand.map(|h| h.scan), mode: None }));
        }
        if let Some(Hand { scan, wins, mode }) = hand {
            let filter = line.call.is_filter().then_some(Sieve { wins, mode, ..Sieve::OPEN });
            session = model::Session { scan, filter, ..model::Session::new(column) };
        }
        Some(caught(|| {
            let said = session.call(&line.call);
            got(said, session.scan, session.filter)
        }))
    };
    case.lines.iter().map(each).collect()
}

fn by_port(case: &Case, column: &model::Column) -> Answers {
    let whole = Scan::fresh(0, column.check().unwrap_or(0));
    let mut session = port::Session::over(whole);
    let mut hand = None;
    let mut desk = port::Desk::default();
    let each = |line: &crate::corpus::Line| {
        if Hand::took(&mut hand, &line.call) || !port::has(&line.call) {
            return None;
        }
        if let Some(Hand { scan, wins, mode }) = hand {
            session = port::Session::over(scan);
            if line.call.is_filter() {
                session = session.open(wins, mode);
            }
        }
        Some(caught(|| {
            let said = session.call(&case.runs, &line.call, &mut desk);
            got(said, session.scan(), session.sieve())
        }))
    };
    case.lines.iter().map(each).collect()
}

/// The Rust's answers to the calls that are not refused. Whether they are is the model's to say, and the file's answer is compared with that too.
fn by_rust(case: &Case, column: &model::Column, by_model: &Answers) -> Answers {
    if column.check().is_err() {
        return Vec::new();
    }
    let mut bench = crate::compare::Bench::new(column, &[]);
    let values = input_values(case);
    let table = rust::table(&values);
    let rust_column = rust::Column::new(&case.runs);
    rust::play(&rust_column, &values, &table, |mut session| {
        let mut dead = false;
        let mut answers = Answers::new();
        for (line, model) in case.lines.iter().zip(by_model) {
            let said = match model {
                Some(Ok(g)) if !matches!(g.said, Said::Refused(_)) && !dead => &g.said,
                _ => {
                    answers.push(None);
                    continue;
                }
            };
            answers.push(match &line.call {
                Call::Set(_) | Call::FilterSet(..) | Call::Read(..) | Call::Write(_) => None,
                Call::Build(..) | Call::Import(..) | Call::Export(..) | Call::Carries(..) | Call::Profile(_) | Call::Totals(..) => None,
                // Nor is a filter in another mode than its own: it is left out of the rest.
                Call::FilterNew(Wins::Exclusive, ..) => {
                    dead = true;
                    None
                }
                Call::Check | Call::Place(_) | Call::Element(_) | Call::Diff(..) | Call::List(_) => {
                    let answer = crate::compare::rust_alone(&mut bench, &line.call, said);
                    answer.map(|a| a.map(|said| Got { said, scan: None, mode: None }))
                }
                // A scan set by hand is not the Rust's.
                _ if case.kind == "raw" => None,
                call => {
                    let answer = caught(|| {
                        let said = session.call(call);
                        let state = match session.call(&Call::Pos) {
                            Said::Index(i) => State::At(i),
                            _ => State::Ended,
                        };
                        let value = match session.call(&Call::Current) {
                            Said::Value(v) => Some(v),
                            _ => None,
                        };
                        Got { said, scan: Some(Scan { start: 0, end: 0, state, value }), mode: session.mode().map(|m| mode(&m)) }
                    });
                    dead = answer.is_err();
                    Some(answer)
                }
            });
        }
        answers
    })
}

/// A filter's state, from the Rust's own Debug text.
pub fn mode(text: &str) -> Mode {
    let value = || text.rsplit_once("value: ").and_then(|(_, v)| v.split(' ').next()?.parse().ok()).expect("a bound's value");
    match text {
        "Before" => Mode::Before,
        "After" => Mode::After,
        "Within(None)" => Mode::Within(None),
        _ => Mode::Within(Some(Bound { value: value(), exclusive: text.contains("Exclusive") })),
    }
}

/// Every value that an input has in the case.
fn input_values(case: &Case) -> Vec<i64> {
    let mut values: Vec<i64> = Vec::new();
    for line in &case.lines {
        values.extend(line.call.lists().iter().flat_map(|l| l.inputs.iter().flatten()));
    }
    values.sort_unstable();
    values.dedup();
    values
}
