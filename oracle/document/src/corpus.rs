//! The text format of call sequences and answers (documents CORPUS and CORPUS2): printing, and reading any file of that format. A run of calls, which they
//! do not have, is `nextrun <places>` and `seekrun <targets> <places>`, its answer `n <n> out <list>` and the scan after it; of a filter `fnextrun <vlower>
//! <vupper> <inputs> <places>` and `fseekrun <targets> <vlower> <vupper> <inputs> <places>`. The five outputs of `totals` may differ in places: then all five
//! numbers stand there.
use crate::calls::*;
use crate::model::Sieve;
use std::fmt::Display;
use std::str::FromStr;

/// One case as a file has it.
#[derive(Clone, Debug, PartialEq, Eq)]
pub struct Case {
    pub number: u64,
    pub kind: String,
    pub both: bool,
    pub runs: Runs,
    pub lines: Vec<Line>,
}

/// One call, the line of the file that it stands on, and what the file expects; `set` and `fset` may stand without an answer.
#[derive(Clone, Debug, PartialEq, Eq)]
pub struct Line {
    pub at: usize,
    pub call: Call,
    pub expected: Option<Expected>,
}

/// An answer, and the scan and filter after the call where the file has them.
#[derive(Clone, Debug, PartialEq, Eq)]
pub struct Expected {
    pub said: Said,
    pub scan: Option<Scan>,
    pub mode: Option<Mode>,
}

// ---- printing

pub fn list<T: Display>(items: impl IntoIterator<Item = T>) -> String {
    let text: Vec<String> = items.into_iter().map(|i| i.to_string()).collect();
    if text.is_empty() { "-".into() } else { text.join(",") }
}

fn hex(bytes: &[u8]) -> String {
    if bytes.is_empty() { "-".into() } else { bytes.iter().map(|b| format!("{b:02X}")).collect() }
}

impl<V: Display> Display for Bound<V> {
    fn fmt(&self, f: &mut std::fmt::Formatter<'_>) -> std::fmt::Result {
        write!(f, "{}{}", if self.exclusive { 'x' } else { 'i' }, self.value)
    }
}

impl Display for State {
    fn fmt(&self, f: &mut std::fmt::Formatter<'_>) -> std::fmt::Result {
        match self {
            State::Fresh => f.write_str("F"),
            State::At(i) => write!(f, "{i}"),
            State::Ended => f.write_str("E"),
        }
    }
}

impl Display for Scan {
    fn fmt(&self, f: &mut std::fmt::Formatter<'_>) -> std::fmt::Result {
        let carried = self.value.map_or("-".to_string(), |v| v.to_string());
        write!(f, "{} {} {} {carried}", self.start, self.end, self.state)
    }
}

impl Display for Wins {
    fn fmt(&self, f: &mut std::fmt::Formatter<'_>) -> std::fmt::Result {
        f.write_str(if *self == Wins::Inclusive { "crate" } else { "strict" })
    }
}

/// As it stands after an answer.
impl Display for Mode {
    fn fmt(&self, f: &mut std::fmt::Formatter<'_>) -> std::fmt::Result {
        match self {
            Mode::Before => f.write_str("B"),
            Mode::After => f.write_str("A"),
            Mode::Within(None) => f.write_str("W -"),
            Mode::Within(Some(b)) => write!(f, "W {b}"),
        }
    }
}

impl Display for Lists {
    fn fmt(&self, f: &mut std::fmt::Formatter<'_>) -> std::fmt::Result {
        let inputs = self.inputs.iter().map(|i| i.map_or("?".to_string(), |v| v.to_string()));
        write!(f, "{} {} {}", list(&self.lower), list(&self.upper), list(inputs))
    }
}

impl Display for Call {
    fn fmt(&self, f: &mut std::fmt::Formatter<'_>) -> std::fmt::Result {
        match self {
            Call::New => f.write_str("new"),
            Call::Next => f.write_str("next"),
            Call::Seek(t) => write!(f, "seek {t}"),
            Call::Current => f.write_str("current"),
            Call::Pos => f.write_str("pos"),
            Call::Reset => f.write_str("reset"),
            Call::Narrow(s, e) => write!(f, "narrow {s} {e}"),
            Call::NextRun(p) => write!(f, "nextrun {p}"),
            Call::SeekRun(t, p) => write!(f, "seekrun {} {p}", list(t)),
            Call::FilterNew(wins, l, u) => write!(f, "fnew {wins} {} {}", list(l), list(u)),
            Call::FilterNext(l) => write!(f, "fnext {l}"),
            Call::FilterSeek(t, l) => write!(f, "fseek {t} {l}"),
            Call::FilterCurrent => f.write_str("fcurrent"),
            Call::FilterReset => f.write_str("freset"),
            Call::FilterNextRun(l, p) => write!(f, "fnextrun {l} {p}"),
            Call::FilterSeekRun(t, l, p) => write!(f, "fseekrun {} {l} {p}", list(t)),
            Call::Check => f.write_str("check"),
            Call::Place(i) => write!(f, "place {i}"),
            Call::Element(i) => write!(f, "element {i}"),
            Call::Diff(p, c) => write!(f, "diff {p} {c}"),
            Call::Set(s) => write!(f, "set {s}"),
            Call::FilterSet(wins, Mode::Within(None)) => write!(f, "fset {wins} W -"),
            Call::FilterSet(wins, Mode::Within(Some(b))) => write!(f, "fset {wins} W {b}"),
            Call::FilterSet(wins, mode) => write!(f, "fset {wins} {mode} -"),
            Call::List(l) => write!(
                f,
                "list {} {} {} {} {} {} {}",
                l.wins,
                list(&l.from),
                list(&l.to),
                list(&l.lower),
                list(&l.upper),
                l.room,
                l.counts
            ),
            Call::Read(b, p) => write!(f, "read {} {} {} {}", hex(b), p[0], p[1], p[2]),
            Call::Write(p) => write!(f, "write {p}"),
            Call::Build(v, p) => write!(f, "build {} {} {} {}", list(v), p[0], p[1], p[2]),
            Call::Import(b, n, p) => write!(f, "import {} {n} {} {} {}", hex(b), p[0], p[1], p[2]),
            Call::Export(n, p) => write!(f, "export {n} {p}"),
            Call::Carries(profile, n, record) => write!(f, "carries {profile} {n} {record}"),
            Call::Profile(Fields { profile, count, start, end, carry, places }) => {
                write!(f, "profile {profile} {count} {start} {end} {} {places}", if *carry { "do" } else { "dont" })
            }
            Call::Totals(from, to, p) if p.iter().all(|q| *q == p[0]) => write!(f, "totals {} {} {}", list(from), list(to), p[0]),
            Call::Totals(from, to, p) => write!(f, "totals {} {} {} {} {} {} {}", list(from), list(to), p[0], p[1], p[2], p[3], p[4]),
        }
    }
}

/// As an answer has them.
impl Display for Runs {
    fn fmt(&self, f: &mut std::fmt::Formatter<'_>) -> std::fmt::Result {
        write!(f, "starts {} ends {} steps {}", list(&self.starts), list(&self.ends), list(&self.steps))
    }
}

/// Over all windows.
impl Display for Total {
    fn fmt(&self, f: &mut std::fmt::Formatter<'_>) -> std::fmt::Result {
        write!(f, "all {} {} {} {} {}", self.count, edge(self.edges.map(|e| e.0)), edge(self.edges.map(|e| e.1)), self.high, self.low)
    }
}

/// A least or a greatest; `?` where there is none.
fn edge(value: Option<i64>) -> String {
    value.map_or("?".into(), |v| v.to_string())
}

/// Window by window.
fn totals(windows: &[Total]) -> String {
    let each = |one: &dyn Fn(&Total) -> String| list(windows.iter().map(one));
    let (least, greatest) = (each(&|t| edge(t.edges.map(|e| e.0))), each(&|t| edge(t.edges.map(|e| e.1))));
    let (counts, high, low) = (each(&|t| t.count.to_string()), each(&|t| t.high.to_string()), each(&|t| t.low.to_string()));
    format!("counts {counts} least {least} greatest {greatest} high {high} low {low}")
}

impl Display for Said {
    fn fmt(&self, f: &mut std::fmt::Formatter<'_>) -> std::fmt::Result {
        match self {
            Said::None => f.write_str("none"),
            Said::Value(v) => write!(f, "v {v}"),
            Said::Index(i) => write!(f, "i {i}"),
            Said::Ok => f.write_str("ok"),
            Said::Refused(n) => write!(f, "r {n}"),
            Said::Length(n) => write!(f, "length {n}"),
            Said::Place(r, k, n) => write!(f, "p {r} {k} {n}"),
            Said::Carries(carries) => f.write_str(if *carries { "yes" } else { "no" }),
            Said::Ran(v) => write!(f, "n {} out {}", v.len(), list(v)),
            Said::Listed { sum, counts, out } => write!(f, "sum {sum} counts {} out {}", list(counts), list(out)),
            Said::Read { used, runs } => write!(f, "runs {} used {used} {runs}", runs.starts.len()),
            Said::Built(runs) => write!(f, "runs {} {runs}", runs.starts.len()),
            Said::Imported { ones, runs } => write!(f, "runs {} ones {ones} {runs}", runs.starts.len()),
            Said::Written(b) => write!(f, "bytes {} {}", b.len(), hex(b)),
            Said::Totalled { all, windows } => write!(f, "{all} {}", totals(windows)),
        }
    }
}

/// ` | <start> <end> <state> <carried>`, and the filter's mode where one is made.
pub fn after(scan: &Scan, sieve: Option<&Sieve>) -> String {
    let mode = sieve.map_or(String::new(), |s| format!(" {}", s.mode));
    format!(" | {scan}{mode}")
}

/// Whether an answer to this call is followed by the scan.
pub fn has_state(call: &Call, said: &Said) -> bool {
    match call {
        Call::New => !matches!(said, Said::Refused(_)),
        Call::Check | Call::Place(_) | Call::Element(_) | Call::Diff(..) => false,
        Call::Set(_) | Call::FilterSet(..) | Call::List(_) | Call::Read(..) | Call::Write(_) => false,
        Call::Build(..) | Call::Import(..) | Call::Export(..) | Call::Carries(..) | Call::Profile(_) | Call::Totals(..) => false,
        _ => true,
    }
}

/// The first lines of a case.
pub fn head(number: u64, kind: &str, both: bool, runs: &Runs) -> String {
    format!(
        "case {number} {kind} {}\nstarts {}\nends {}\nsteps {}\n",
        if both { "both" } else { "model" },
        list(&runs.starts),
        list(&runs.ends),
        list(&runs.steps)
    )
}

// ---- reading

type Parsed<T> = Result<T, String>;

fn number<T: FromStr>(word: &str) -> Parsed<T> {
    word.parse().map_err(|_| format!("'{word}' is no number that fits here"))
}

fn items<T>(word: &str, item: impl Fn(&str) -> Parsed<T>) -> Parsed<Vec<T>> {
    if word == "-" { Ok(Vec::new()) } else { word.split(',').map(item).collect() }
}

/// A list with its short forms: `v*n` is n times v, `v~d*n` the n values v, v+d, v+2d ..
fn numbers<T: FromStr + TryFrom<i128>>(word: &str) -> Parsed<Vec<T>> {
    let several = |item: &str| -> Parsed<Vec<T>> {
        let Some((first, count)) = item.split_once('*') else {
            return Ok(vec![number(item)?]);
        };
        let (first, by): (i128, i128) = match first.split_once('~') {
            Some((first, by)) => (number(first)?, number(by)?),
            None => (number(first)?, 0),
        };
        let one = |i: u32| T::try_from(first + by * i128::from(i)).map_err(|_| format!("'{item}' has a number that does not fit here"));
        (0..number::<u32>(count)?).map(one).collect()
    };
    Ok(items(word, several)?.into_iter().flatten().collect())
}

fn bound<V: FromStr>(word: &str) -> Parsed<Bound<V>> {
    let exclusive = match word.as_bytes().first() {
        Some(b'i') => false,
        Some(b'x') => true,
        _ => return Err(format!("'{word}' is no bound")),
    };
    Ok(Bound { value: number(&word[1..])?, exclusive })
}

/// Bytes with their short form: parts joined by `+`, and `XX*n` is n times XX, which may be several bytes.
fn bytes(word: &str) -> Parsed<Vec<u8>> {
    if word == "-" {
        return Ok(Vec::new());
    }
    let several = |part: &str| match part.split_once('*') {
        Some((once, count)) => Ok(plain_bytes(once)?.repeat(number::<u32>(count)? as usize)),
        None => plain_bytes(part),
    };
    Ok(word.split('+').map(several).collect::<Parsed<Vec<_>>>()?.concat())
}

fn plain_bytes(word: &str) -> Parsed<Vec<u8>> {
    if word.is_empty() || !word.len().is_multiple_of(2) || !word.bytes().all(|b| b.is_ascii_hexdigit()) {
        return Err(format!("'{word}' is no row of bytes"));
    }
    (0..word.len() / 2).map(|i| u8::from_str_radix(&word[2 * i..2 * i + 2], 16).map_err(|e| e.to_string())).collect()
}

fn state(word: &str) -> Parsed<State> {
    Ok(match word {
        "F" => State::Fresh,
        "E" => State::Ended,
        index => State::At(number(index)?),
    })
}

fn scan([start, end, at, carried]: [&str; 4]) -> Parsed<Scan> {
    let value = if carried == "-" { None } else { Some(number(carried)?) };
    Ok(Scan { start: number(start)?, end: number(end)?, state: state(at)?, value })
}

fn wins(word: &str) -> Parsed<Wins> {
    match word {
        "crate" => Ok(Wins::Inclusive),
        "strict" => Ok(Wins::Exclusive),
        _ => Err(format!("'{word}' is no mode")),
    }
}

/// A filter's state: `B`, `A`, or `W` and the bound that it keeps.
fn mode(words: &[&str]) -> Parsed<Mode> {
    Ok(match words {
        ["B"] => Mode::Before,
        ["A"] => Mode::After,
        ["W", "-"] => Mode::Within(None),
        ["W", b] => Mode::Within(Some(bound(b)?)),
        _ => return Err(format!("'{}' is no filter's state", words.join(" "))),
    })
}

/// Whether those are asked for that carry the field.
fn does(word: &str) -> Parsed<bool> {
    match word {
        "do" => Ok(true),
        "dont" => Ok(false),
        _ => Err(format!("'{word}' is neither do nor dont")),
    }
}

fn lists(words: &[&str]) -> Parsed<Lists> {
    let input = |w: &str| if w == "?" { Ok(None) } else { number(w).map(Some) };
    Ok(Lists { lower: items(words[0], bound)?, upper: items(words[1], bound)?, inputs: items(words[2], input)? })
}

pub fn call(text: &str) -> Parsed<Call> {
    let mut words: Vec<&str> = text.split(' ').filter(|w| !w.is_empty()).collect();
    // `read` of no bytes may stand with nothing in their place.
    if words.first() == Some(&"read") && words.len() == 4 {
        words.insert(1, "-");
    }
    if matches!((words.first(), words.len()), (Some(&"fnew"), 3) | (Some(&"list"), 7)) {
        words.insert(1, "crate");
    }
    Ok(match words[..] {
        ["new"] => Call::New,
        ["next"] => Call::Next,
        ["seek", t] => Call::Seek(number(t)?),
        ["current"] => Call::Current,
        ["pos"] => Call::Pos,
        ["reset"] => Call::Reset,
        ["narrow", s, e] => Call::Narrow(number(s)?, number(e)?),
        ["nextrun", p] => Call::NextRun(number(p)?),
        ["seekrun", t, p] => Call::SeekRun(numbers(t)?, number(p)?),
        ["fnew", w, l, u] => Call::FilterNew(wins(w)?, items(l, bound)?, items(u, bound)?),
        ["fnext", l, u, i] => Call::FilterNext(lists(&[l, u, i])?),
        ["fseek", t, l, u, i] => Call::FilterSeek(number(t)?, lists(&[l, u, i])?),
        ["fcurrent"] => Call::FilterCurrent,
        ["freset"] => Call::FilterReset,
        ["fnextrun", l, u, i, p] => Call::FilterNextRun(lists(&[l, u, i])?, number(p)?),
        ["fseekrun", t, l, u, i, p] => Call::FilterSeekRun(numbers(t)?, lists(&[l, u, i])?, number(p)?),
        ["check"] => Call::Check,
        ["place", i] => Call::Place(number(i)?),
        ["element", i] => Call::Element(number(i)?),
        ["diff", p, c] => Call::Diff(number(p)?, number(c)?),
        ["set", s, e, at, v] => Call::Set(scan([s, e, at, v])?),
        ["fset", w, "W", kept] => Call::FilterSet(wins(w)?, mode(&["W", kept])?),
        ["fset", w, at, "-"] => Call::FilterSet(wins(w)?, mode(&[at])?),
        ["list", w, from, to, l, u, room, counts] => Call::List(Listing {
            from: numbers(from)?,
            to: numbers(to)?,
            wins: wins(w)?,
            lower: items(l, bound)?,
            upper: items(u, bound)?,
            room: number(room)?,
            counts: number(counts)?,
        }),
        ["read", b, s, e, t] => Call::Read(bytes(b)?, [number(s)?, number(e)?, number(t)?]),
        ["write", p] => Call::Write(number(p)?),
        ["build", v, s, e, t] => Call::Build(numbers(v)?, [number(s)?, number(e)?, number(t)?]),
        ["import", b, n, s, e, t] => Call::Import(bytes(b)?, number(n)?, [number(s)?, number(e)?, number(t)?]),
        ["export", n, p] => Call::Export(number(n)?, number(p)?),
        ["carries", profile, n, record] => Call::Carries(number(profile)?, number(n)?, number(record)?),
        ["profile", profile, n, start, end, which, p] => Call::Profile(Fields {
            profile: number(profile)?,
            count: number(n)?,
            start: number(start)?,
            end: number(end)?,
            carry: does(which)?,
            places: number(p)?,
        }),
        ["totals", s, e, p] => Call::Totals(numbers(s)?, numbers(e)?, [number(p)?; 5]),
        ["totals", s, e, c, l, g, h, w] => Call::Totals(numbers(s)?, numbers(e)?, [number(c)?, number(l)?, number(g)?, number(h)?, number(w)?]),
        _ => return Err(format!("'{text}' is no call")),
    })
}

/// A column as an answer has it, of so many runs.
fn runs(n: &str, [starts, ends, steps]: [&str; 3]) -> Parsed<Runs> {
    let runs = Runs { starts: numbers(starts)?, ends: numbers(ends)?, steps: numbers(steps)? };
    let count: usize = number(n)?;
    if [runs.starts.len(), runs.ends.len(), runs.steps.len()] != [count; 3] {
        return Err(format!("{count} runs are said, and lists of another length follow"));
    }
    Ok(runs)
}

/// Leasts or greatests: a list in which `?` stands for none, also as `?*n`.
fn edges(word: &str) -> Parsed<Vec<Option<i64>>> {
    let several = |item: &str| -> Parsed<Vec<Option<i64>>> {
        match item.split_once('*') {
            None if item == "?" => Ok(vec![None]),
            Some(("?", count)) => Ok(vec![None; number::<u32>(count)? as usize]),
            _ => Ok(numbers(item)?.into_iter().map(Some).collect()),
        }
    };
    Ok(items(word, several)?.into_iter().flatten().collect())
}

/// A least and a greatest: both are there, or neither.
fn pair(least: Option<i64>, greatest: Option<i64>) -> Parsed<Option<(i64, i64)>> {
    match (least, greatest) {
        (Some(least), Some(greatest)) => Ok(Some((least, greatest))),
        (None, None) => Ok(None),
        _ => Err("of least and greatest one is missing".into()),
    }
}

/// Totals as an answer has them: those over all, and five lists with an item a window.
fn totalled([n, least, greatest, high, low]: [&str; 5], lists: [&str; 5]) -> Parsed<Said> {
    let one = |word: &str| if word == "?" { Ok(None) } else { number(word).map(Some) };
    let all = Total { count: number(n)?, edges: pair(one(least)?, one(greatest)?)?, high: number(high)?, low: number(low)? };
    let (counts, leasts, greatests) = (numbers(lists[0])?, edges(lists[1])?, edges(lists[2])?);
    let (highs, lows): (Vec<i64>, Vec<u64>) = (numbers(lists[3])?, numbers(lists[4])?);
    if [leasts.len(), greatests.len(), highs.len(), lows.len()] != [counts.len(); 4] {
        return Err("the lists of windows differ in length".into());
    }
    let window = |i: usize| Ok(Total { count: counts[i], edges: pair(leasts[i], greatests[i])?, high: highs[i], low: lows[i] });
    Ok(Said::Totalled { all, windows: (0..counts.len()).map(window).collect::<Parsed<_>>()? })
}

fn said(text: &str) -> Parsed<Said> {
    let words: Vec<&str> = text.split(' ').filter(|w| !w.is_empty()).collect();
    Ok(match words[..] {
        ["none"] => Said::None,
        ["v", v] => Said::Value(number(v)?),
        ["i", i] => Said::Index(number(i)?),
        ["ok"] => Said::Ok,
        ["r", n] => Said::Refused(number(n)?),
        ["length", n] => Said::Length(number(n)?),
        ["yes"] => Said::Carries(true),
        ["no"] => Said::Carries(false),
        ["p", r, k, n] => Said::Place(number(r)?, number(k)?, number(n)?),
        ["n", n, "out", o] => {
            let out = numbers(o)?;
            if out.len() != number::<usize>(n)? {
                return Err(format!("{n} values are said, and {} follow", out.len()));
            }
            Said::Ran(out)
        }
        ["sum", n, "counts", c, "out", o] => {
            Said::Listed { sum: number(n)?, counts: numbers(c)?, out: numbers(o)? }
        }
        ["runs", n, "used", used, "starts", s, "ends", e, "steps", t] => Said::Read { used: number(used)?, runs: runs(n, [s, e, t])? },
        ["runs", n, "starts", s, "ends", e, "steps", t] => Said::Built(runs(n, [s, e, t])?),
        ["runs", n, "ones", ones, "starts", s, "ends", e, "steps", t] => Said::Imported { ones: number(ones)?, runs: runs(n, [s, e, t])? },
        ["all", n, l, g, h, w, "counts", cs, "least", ls, "greatest", gs, "high", hs, "low", ws] => totalled([n, l, g, h, w], [cs, ls, gs, hs, ws])?,
        ["bytes", n, b] => {
            let b = bytes(b)?;
            if b.len() != number::<usize>(n)? {
                return Err(format!("{n} bytes are said, and {} follow", b.len()));
            }
            Said::Written(b)
        }
        _ => return Err(format!("'{text}' is no answer")),
    })
}

pub fn expected(text: &str) -> Parsed<Expected> {
    let Some((answer, rest)) = text.split_once(" | ") else {
        return Ok(Expected { said: said(text)?, scan: None, mode: None });
    };
    let words: Vec<&str> = rest.split(' ').filter(|w| !w.is_empty()).collect();
    let (&numbers, after) = words.split_first_chunk::<4>().ok_or_else(|| format!("'{rest}' is no scan"))?;
    let mode = if after.is_empty() { None } else { Some(mode(after)?) };
    Ok(Expected { said: said(answer)?, scan: Some(scan(numbers)?), mode })
}

/// The cases of a file, in order. An error names its line.
pub fn cases(text: &str) -> Parsed<Vec<Case>> {
    let mut found = Vec::new();
    let mut open: Option<Case> = None;
    for (at, line) in text.lines().enumerate().map(|(i, l)| (i + 1, l.trim_end())) {
        if line.is_empty() || line.starts_with('#') {
            continue;
        }
        let here = |e: String| format!("line {at}: {e}");
        match (&mut open, line.split_once(' ').unwrap_or((line, ""))) {
            (None, ("case", rest)) => open = Some(case(rest).map_err(here)?),
            (None, _) => return Err(here(format!("'{line}' stands outside a case"))),
            (Some(_), ("end", "")) => found.extend(open.take()),
            (Some(c), ("starts", l)) => c.runs.starts = numbers(l).map_err(here)?,
            (Some(c), ("ends", l)) => c.runs.ends = numbers(l).map_err(here)?,
            (Some(c), ("steps", l)) => c.runs.steps = numbers(l).map_err(here)?,
            (Some(_), ("width", "i64")) => {}
            (Some(c), _) => {
                let (words, answer) = line.split_once(" -> ").map_or((line, None), |(w, a)| (w, Some(a)));
                let call = call(words).map_err(here)?;
                let expected = answer.map(expected).transpose().map_err(here)?;
                if expected.is_none() && !matches!(call, Call::Set(_) | Call::FilterSet(..)) {
                    return Err(here(format!("'{line}' has no answer")));
                }
                c.lines.push(Line { at, call, expected });
            }
        }
    }
    if open.is_some() { Err("the file ends inside a case".into()) } else { Ok(found) }
}

fn case(rest: &str) -> Parsed<Case> {
    let [n, kind, by] = rest.split(' ').collect::<Vec<_>>()[..] else {
        return Err(format!("'case {rest}' is not number, kind and by"));
    };
    let kinds = ["scan", "filter", "mixed", "far", "column", "raw", "list", "read", "write", "build", "import", "export", "profile", "totals"];
    // CORPUS2 has the request from which on the case holds in its place, and any word for the kind; the Rust does not play such a case.
    let from = by.parse::<u32>().is_ok();
    if !from && !kinds.contains(&kind) {
        return Err(format!("'{kind}' is no kind of case"));
    }
    let both = match by {
        "both" => true,
        "model" => false,
        _ if from => false,
        _ => return Err(format!("'{by}' is neither both, model nor a request")),
    };
    Ok(Case { number: number(n)?, kind: kind.into(), both, runs: Runs::default(), lines: Vec::new() })
}
