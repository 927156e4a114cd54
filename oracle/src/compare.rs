//! One call on every side, and everything that can be seen of it compared.
use crate::calls::*;
use crate::{corpus, model, port, rust};
use std::cell::Cell;
use std::panic::{AssertUnwindSafe, catch_unwind};

/// What was compared, and what differed.
#[derive(Default)]
pub struct Tally {
    /// Calls made on all sides that are there and compared; `current`, `pos` and the filter's `current` after a call count as calls.
    pub calls: u64,
    pub sequences: u64,
    /// Of the calls: those that the Rust answered too, those that were refused, and seeks at which the Rust panicked as foretold.
    pub rust: u64,
    pub refused: u64,
    pub panics: u64,
    /// Looks into the Rust's private fields.
    pub inside: u64,
    pub differences: u64,
    /// Calls up to the first difference.
    pub first: Option<u64>,
    /// Differences beyond this end the run.
    pub limit: u64,
}

impl Tally {
    pub fn full(&self) -> bool {
        self.differences >= self.limit
    }

    pub fn differ(&mut self, text: String) {
        self.differences += 1;
        self.first.get_or_insert(self.calls);
        println!("DIFFERENCE {} (after {} calls)\n{text}", self.differences, self.calls);
    }
}

/// A column on every side.
pub struct Bench<'a> {
    pub column: &'a model::Column<'a>,
    pub rust: Option<rust::Column>,
    values: Vec<i64>,
    table: rust::Column,
    pub desk: port::Desk,
    /// The calls of the present sequence, for the text of a difference.
    trail: Vec<Call>,
    /// Look into the Rust's private fields after every so many calls; 0 is never.
    pub look_every: u64,
    looks: u64,
}

/// The sides of one sequence but the Rust's, whose scan can't be copied.
#[derive(Clone, Copy)]
pub struct Sides<'a> {
    pub model: model::Session<'a>,
    pub port: port::Session,
    /// False once the Rust has panicked or a filter was made in a mode that it does not have, or where it never played.
    pub alive: bool,
}

thread_local! {
    /// Whether a panic is to be caught and judged, and so not printed.
    static JUDGED: Cell<bool> = const { Cell::new(false) };
}

/// Panics that are judged are silent; every other is printed as always.
pub fn quiet_panics() {
    let usual = std::panic::take_hook();
    std::panic::set_hook(Box::new(move |info| {
        if !JUDGED.get() {
            usual(info);
        }
    }));
}

pub fn caught<R>(work: impl FnOnce() -> R) -> Result<R, String> {
    JUDGED.set(true);
    let result = catch_unwind(AssertUnwindSafe(work));
    JUDGED.set(false);
    result.map_err(|why| match why.downcast::<String>() {
        Ok(text) => *text,
        Err(why) => why.downcast::<&str>().map_or("a panic".into(), |t| t.to_string()),
    })
}

impl<'a> Bench<'a> {
    /// `values` are all that inputs may have in the calls to come.
    pub fn new(column: &'a model::Column<'a>, values: &[i64]) -> Self {
        let rust = (rust::PRESENT && column.check().is_ok()).then(|| rust::Column::new(column.runs));
        Bench {
            column,
            rust,
            values: values.to_vec(),
            table: rust::table(values),
            desk: port::Desk::default(),
            trail: Vec::new(),
            look_every: 0,
            looks: 0,
        }
    }

    /// The Rust's column and the inputs' table, out of the bench while a session borrows them.
    fn take(&mut self) -> (Option<rust::Column>, Vec<i64>, rust::Column) {
        self.trail.clear();
        (self.rust.take(), std::mem::take(&mut self.values), std::mem::replace(&mut self.table, rust::table(&[])))
    }

    fn put_back(&mut self, rust: Option<rust::Column>, values: Vec<i64>, table: rust::Column) {
        (self.rust, self.values, self.table) = (rust, values, table);
    }

    fn report(&self, tally: &mut Tally, call: &Call, m: &model::Session, said: &Said, who: &str, got: &str) {
        let mut text = corpus::head(0, "mixed", false, self.column.runs);
        for c in &self.trail {
            text.push_str(&format!("{c} -> ...\n"));
        }
        text.push_str(&format!("{call} -> {said}{}\n", corpus::after(&m.scan, m.filter.as_ref())));
        tally.differ(format!("{text}the model says the last line; {who}: {got}\n"));
    }
}

impl<'a> Sides<'a> {
    /// A scan with this window, fresh.
    fn fresh(column: &'a model::Column<'a>, start: u64, end: u64) -> Sides<'a> {
        let scan = Scan::fresh(start, end);
        let model = model::Session { scan, ..model::Session::new(column) };
        Sides { model, port: port::Session::over(scan), alive: true }
    }
}

/// Where the Rust is not there or the column is refused: no session.
fn with_rust<R>(rust: &Option<rust::Column>, values: &[i64], table: &rust::Column, work: impl FnOnce(&mut Option<rust::Session<'_>>) -> R) -> R {
    match rust {
        Some(column) => rust::play(column, values, table, |session| work(&mut Some(session))),
        None => work(&mut None),
    }
}

/// One sequence, from a new scan on, whatever the column is.
pub fn sequence(bench: &mut Bench, calls: &[Call], tally: &mut Tally) -> Vec<(Said, Scan, Option<model::Sieve>)> {
    let (rust, values, table) = bench.take();
    let said = with_rust(&rust, &values, &table, |session| {
        let mut sides = Sides::fresh(bench.column, 0, bench.column.check().unwrap_or(0));
        let mut answers = Vec::with_capacity(calls.len());
        for call in calls {
            let said = step(bench, &mut sides, session, None, call, tally);
            answers.push((said, sides.model.scan, sides.model.filter));
            bench.trail.push(call.clone());
            if tally.full() {
                break;
            }
        }
        answers
    });
    tally.sequences += 1;
    bench.put_back(rust, values, table);
    said
}

/// Every sequence of one to `depth` calls of the alphabet, each after the calls of `before` on a fresh scan over the window.
pub fn tree(bench: &mut Bench, window: (u64, u64), before: &[Call], alphabet: &[Call], depth: usize, tally: &mut Tally) {
    let (rust, values, table) = bench.take();
    with_rust(&rust, &values, &table, |session| {
        let mut sides = Sides::fresh(bench.column, window.0, window.1);
        bench.trail.push(Call::Narrow(window.0, window.1));
        let mut path: Vec<&Call> = Vec::new();
        for call in before {
            let replay = Some((window.0, window.1, &path[..]));
            let said = step(bench, &mut sides, session, replay, call, tally);
            bench.trail.push(call.clone());
            if !matches!(said, Said::Refused(_)) {
                path.push(call);
            }
        }
        grow(bench, window, sides, session, &mut path, alphabet, depth, tally);
    });
    bench.put_back(rust, values, table);
}

#[allow(clippy::too_many_arguments)]
fn grow<'a, 'c>(
    bench: &mut Bench<'a>,
    window: (u64, u64),
    sides: Sides<'a>,
    session: &mut Option<rust::Session<'_>>,
    path: &mut Vec<&'c Call>,
    alphabet: &'c [Call],
    depth: usize,
    tally: &mut Tally,
) {
    for call in alphabet {
        if tally.full() {
            return;
        }
        let mut below = sides;
        let said = step(bench, &mut below, session, Some((window.0, window.1, path)), call, tally);
        if depth == 1 {
            tally.sequences += 1;
            continue;
        }
        let refused = matches!(said, Said::Refused(_));
        if !refused {
            path.push(call);
        }
        bench.trail.push(call.clone());
        grow(bench, window, below, session, path, alphabet, depth - 1, tally);
        bench.trail.pop();
        if !refused {
            path.pop();
        }
    }
}

/// The scan calls that look and change nothing.
const LOOKS: [Call; 2] = [Call::Current, Call::Pos];

/// One call on every side. `replay`: bring the Rust's session to the state before the call first, from a window and calls.
fn step<'a>(
    bench: &mut Bench<'a>,
    sides: &mut Sides<'a>,
    session: &mut Option<rust::Session<'_>>,
    replay: Option<(u64, u64, &[&Call])>,
    call: &Call,
    tally: &mut Tally,
) -> Said {
    let said = sides.model.call(call);
    let overflow = sides.model.overflow;
    let m = sides.model;
    let refused = matches!(said, Said::Refused(_));
    // What can be looked at afterwards, by the model.
    let mut look = m;
    let seen = [look.call(&LOOKS[0]), look.call(&LOOKS[1])];
    let sifted = m.filter.is_some().then(|| look.call(&Call::FilterCurrent));
    // What the scan carries, by the port where it is there: the Rust's own `current` is compared with that too.
    let mut carried = m.scan.value;
    tally.calls += 3 + u64::from(sifted.is_some());
    tally.refused += u64::from(refused);
    sides.alive &= m.filter.is_none_or(|f| f.wins == Wins::Inclusive);

    if port::PRESENT {
        let (runs, desk) = (bench.column.runs, &mut bench.desk);
        let mut p = sides.port;
        let got = caught(|| {
            let got = p.call(runs, call, desk);
            let saw = [p.call(runs, &LOOKS[0], desk), p.call(runs, &LOOKS[1], desk)];
            let sifted = p.sieve().map(|_| p.call(runs, &Call::FilterCurrent, desk));
            (got, p.scan(), p.sieve(), saw, sifted)
        });
        sides.port = p;
        match got {
            Ok((g, scan, sieve, saw, sift)) => {
                carried = scan.value;
                if g != said || scan != m.scan || sieve != m.filter || saw != seen || sift != sifted {
                    let after = corpus::after(&scan, sieve.as_ref());
                    bench.report(tally, call, &m, &said, "the port", &format!("{g}{after} current, pos {saw:?}, filter's {sift:?}, {sieve:?}"));
                }
            }
            Err(why) => bench.report(tally, call, &m, &said, "the port panicked", &why),
        }
    }

    if let (Some(session), true, false) = (session.as_mut(), sides.alive, refused) {
        let got = caught(|| {
            if let Some((start, end, calls)) = replay {
                session.restart(start, end);
                for c in calls {
                    session.call(c);
                }
            }
            let got = session.call(call);
            let saw = [session.call(&LOOKS[0]), session.call(&LOOKS[1])];
            let sifted = sifted.is_some().then(|| session.call(&Call::FilterCurrent));
            (got, saw, sifted)
        });
        match got {
            Ok((g, saw, sift)) => {
                tally.rust += 3 + u64::from(sift.is_some());
                if overflow {
                    bench.report(tally, call, &m, &said, "the Rust should have panicked and answered", &g.to_string());
                } else if g != said || saw != seen || sift != sifted || saw[0] != carried.map_or(Said::None, Said::Value) {
                    let text = format!("{g} current, pos {saw:?}, filter's {sift:?}; carried {carried:?}");
                    bench.report(tally, call, &m, &said, "the Rust", &text);
                }
                bench.looks += 1;
                if bench.look_every > 0 && bench.looks.is_multiple_of(bench.look_every) {
                    tally.inside += 1;
                    if let Some(got) = inside_differs(bench.column, session, &m) {
                        bench.report(tally, call, &m, &said, "inside the Rust", &got);
                    }
                }
            }
            Err(_) if overflow => {
                tally.panics += 1;
                sides.alive = false;
            }
            Err(why) => {
                sides.alive = false;
                bench.report(tally, call, &m, &said, "the Rust panicked", &why);
            }
        }
    }
    said
}

/// The Rust's private fields against the model's state; what differs, in words.
fn inside_differs(column: &model::Column, session: &rust::Session, m: &model::Session) -> Option<String> {
    let inside = session.inside();
    let length = column.check().expect("the Rust plays on sound columns");
    // Beyond the column the Rust counts on: run count, and what is over.
    let place = |i: u64| column.place(i).map_or_else(|_| (column.runs.ends.len() as u64, i - length), |(run, offset, _)| (run, offset));
    let mut bad = Vec::new();
    let mut hold = |what: &str, holds: bool| {
        if !holds {
            bad.push(what.to_string());
        }
    };
    hold("the window's beginning", inside.lower == place(m.scan.start));
    hold("the window's end", inside.upper == place(m.scan.end));
    // A seek in the empty column leaves the Rust as it was; no later call can tell.
    hold("fresh or not", inside.started == (m.scan.state != State::Fresh) || column.runs.ends.is_empty());
    match m.scan.state {
        State::At(i) => {
            hold("the place", inside.place == place(i));
            hold("the value kept", inside.current == format!("Some({})", column.at(i)));
        }
        _ => hold("the value kept", inside.current == "None"),
    }
    let mode = m.filter.map(|f| match f.mode {
        Mode::Before => "Before".to_string(),
        Mode::After => "After".to_string(),
        Mode::Within(None) => "Within(None)".to_string(),
        Mode::Within(Some(b)) => {
            let kind = if b.exclusive { "Exclusive" } else { "Inclusive" };
            format!("Within(Some(IntervalBoundConstant {{ boundary_type: {kind}, value: {} }}))", b.value)
        }
    });
    let got = session.mode();
    hold(&format!("the filter's state {got:?}, not {mode:?}"), got == mode);
    (!bad.is_empty()).then(|| format!("{}: {}", bad.join(", "), "other than the model's"))
}

/// A call that needs no scan: on a column, or one of the calls that the port adds. What the Rust has of it is compared too.
pub fn alone(bench: &mut Bench, call: &Call, tally: &mut Tally) -> Said {
    bench.trail.clear();
    let mut m = model::Session::new(bench.column);
    let said = m.call(call);
    tally.calls += 1;
    tally.sequences += 1;
    tally.refused += u64::from(matches!(said, Said::Refused(_)));
    if port::has(call) {
        let (runs, desk) = (bench.column.runs, &mut bench.desk);
        let got = caught(|| port::Session::over(m.scan).call(runs, call, desk));
        match got {
            Ok(got) if got == said => {}
            Ok(got) => bench.report(tally, call, &m, &said, "the port", &got.to_string()),
            Err(why) => bench.report(tally, call, &m, &said, "the port panicked", &why),
        }
    }
    if let Some(got) = rust_alone(bench, call, &said) {
        tally.rust += 1;
        match got {
            Ok(got) if got == said => {}
            Ok(got) => bench.report(tally, call, &m, &said, "the Rust", &got.to_string()),
            Err(why) => bench.report(tally, call, &m, &said, "the Rust panicked", &why),
        }
    }
    said
}

/// What the Rust says to such a call; none where it has no such call, or the call is refused or overflows there.
pub fn rust_alone(bench: &mut Bench, call: &Call, said: &Said) -> Option<Result<Said, String>> {
    if !rust::PRESENT || matches!(said, Said::Refused(_)) {
        return None;
    }
    if let Call::Diff(previous, current) = call {
        let step = caught(|| rust::diff_step(*previous, *current));
        return Some(step.map(|s| s.map_or(Said::None, |s| Said::Value(i64::from(s)))));
    }
    let column = bench.rust.as_ref()?;
    match call {
        Call::Check => Some(caught(|| {
            let length = column.len();
            assert!(column.is_empty() == (length == 0), "is_empty");
            Said::Length(length)
        })),
        Call::Place(i) => Some(caught(|| {
            let (run, offset) = column.place(*i);
            let Said::Place(_, _, follows) = said else { panic!("no place: {said}") };
            assert!(reaches(column, *i, run, *follows), "the Rust's places do not bear out that {follows} follow");
            Said::Place(run, offset, *follows)
        })),
        Call::Element(i) => Some(caught(|| Said::Value(column.get(*i)))),
        Call::List(l) if l.wins == Wins::Inclusive => {
            let lower = l.lower.iter().max();
            let far = |start, end| lower.is_some_and(|b| bench.column.overflows(&Scan::fresh(start, end), b.value));
            if l.from.iter().zip(&l.to).any(|(&s, &e)| far(s, e)) {
                return None;
            }
            Some(caught(|| rust::play(column, &[], &rust::table(&[]), |session| listed(session, l))))
        }
        _ => None,
    }
}

/// Whether so many elements follow in the run of an index, by the Rust's places of two other indices; it has no such number of its own.
fn reaches(column: &rust::Column, i: u64, run: u64, follows: u64) -> bool {
    let end = i + follows;
    if follows == 0 { i == column.len() } else { column.place(end - 1).0 == run && column.place(end) == (run + 1, 0) }
}

/// A listing by the Rust: its filter over its scan, window by window.
fn listed(mut session: rust::Session, l: &Listing) -> Said {
    let (mut counts, mut out) = (Vec::new(), Vec::new());
    for (&start, &end) in l.from.iter().zip(&l.to) {
        session.restart(start, end);
        session.call(&Call::FilterNew(l.wins, l.lower.clone(), l.upper.clone()));
        let before = out.len();
        let next = Call::FilterNext(Lists::default());
        while let Said::Value(v) = session.call(&next) {
            out.push(v);
        }
        counts.push((out.len() - before) as u64);
    }
    Said::Listed { sum: out.len() as u64, counts, out }
}

/// Each call from the same scan put together by hand, a filter call from a filter without constant bounds in this mode and state. The Rust has no such
/// scans.
pub fn by_hand(bench: &mut Bench, scan: Scan, (wins, mode): (Wins, Mode), calls: &[Call], tally: &mut Tally) -> Vec<(Said, Scan, Option<model::Sieve>)> {
    bench.trail.clear();
    bench.trail.extend([Call::Set(scan), Call::FilterSet(wins, mode)]);
    tally.sequences += 1;
    let each = |call: &Call| {
        let filter = call.is_filter().then_some(model::Sieve { wins, mode, ..model::Sieve::OPEN });
        let model = model::Session { scan, filter, ..model::Session::new(bench.column) };
        let port = port::Session::over(scan);
        let port = if call.is_filter() { port.open(wins, mode) } else { port };
        let mut sides = Sides { model, port, alive: false };
        let said = step(bench, &mut sides, &mut None, None, call, tally);
        (said, sides.model.scan, sides.model.filter)
    };
    calls.iter().map(each).collect()
}
