//! A fixed sample of the Rust's answers as a Rattle program (crates/replayed): the calls as code, the Rust's answers as what it must write.
use crate::calls::*;
use crate::random::{self, Dice};
use crate::{model, rust};
use std::fmt::Write;

/// Cases in a file, so that files stay short.
const IN_A_FILE: usize = 4;
const CALLS: usize = 12;

/// What a sample has to show: every kind of call, lists of every length, and every state of a filter.
const CALLED: [&str; 12] = [
    "new", "next", "seek", "narrow", "reset", "current", "pos", "fnew", "fnext", "fseek", "fcurrent", "freset",
];
const LISTED: [&str; 13] =
    ["b0", "b1", "b2", "v0", "v1", "v2", "i0", "i1", "i2", "inclusive", "exclusive", "named", "named_out"];
const WRITTEN: [&str; 6] = [" before", " within free", " within up to ", " within below ", " after", " ended"];

/// A sample: its files by name, `stdout` last; its seed; how often each kind of call is in it.
pub struct Sample {
    pub files: Vec<(String, String)>,
    pub seed: u64,
    pub calls: Vec<(&'static str, usize)>,
}

/// The sample of the first seed from `seed` on that shows all that it has to.
pub fn showing(cases: usize, seed: u64, made_by: impl Fn(u64) -> String) -> Sample {
    let called = |code: &str, name: &str| code.matches(&format!(" {name}(")).count();
    for seed in seed.. {
        let files = sample(cases, seed, &made_by(seed));
        let (stdout, code) = files.split_last().expect("stdout is there");
        let code: String = code[1..].iter().map(|(_, text)| text.as_str()).collect();
        let listed = LISTED.iter().all(|name| code.contains(&format!("{name}(")));
        let calls: Vec<_> = CALLED.iter().map(|&name| (name, called(&code, name))).collect();
        if listed && calls.iter().all(|(_, n)| *n > 0) && WRITTEN.iter().all(|words| stdout.1.contains(words)) {
            return Sample { files, seed, calls };
        }
    }
    unreachable!("seeds do not end")
}

/// The files of a seed's sample: their names and texts, `stdout` last.
fn sample(cases: usize, seed: u64, made_by: &str) -> Vec<(String, String)> {
    let mut d = Dice(seed);
    let mut played = Vec::new();
    while played.len() < cases {
        let kind = ["scan", "filter"][played.len() % 2];
        played.extend(case(&mut d, kind));
    }
    let head = |what: &str| format!("// {what}\n// Made by `{made_by}`; not written by hand.\n");
    let mut files = Vec::new();
    let mut main = head("A fixed sample of the Rust's answers, played again: what this writes must be what the Rust answered.");
    main.push_str("#![tactic(auto)]\n\n");
    let numbers = 1..=played.len().div_ceil(IN_A_FILE);
    numbers.clone().for_each(|n| writeln!(main, "mod cases_{n};").unwrap());
    main.push_str("mod played;\n\nfn main(rt: HostRuntime) {\n");
    numbers.for_each(|n| writeln!(main, "    cases_{n}::all(&rt);").unwrap());
    main.push_str("}\n");
    files.push(("src/main.rt".to_string(), main));
    let mut stdout = String::new();
    for (n, chunk) in played.chunks(IN_A_FILE).enumerate() {
        let mut code = head("Calls of the sample.");
        code.push_str("use crate::played::*;\nuse shown::text;\n");
        let mut all = String::from("\npub fn all(rt: &HostRuntime) {\n");
        for (k, (runs, calls, answers)) in chunk.iter().enumerate() {
            let number = n * IN_A_FILE + k + 1;
            writeln!(code, "\nfn case_{number}(rt: &HostRuntime, v: &[i64], e: &[u64], d: &[i16]) {{\n    text(rt, b\"case {number}\\n\");").unwrap();
            calls.iter().enumerate().for_each(|(i, c)| writeln!(code, "    {};", spelt(c, &calls[i + 1..])).unwrap());
            code.push_str("}\n");
            let (v, e, s) = (plain(&runs.starts), plain(&runs.ends), plain(&runs.steps));
            // A function that lends few arrays is proved quicker than one that lends many.
            writeln!(code, "\nfn lent_{number}(rt: &HostRuntime) {{\n    case_{number}(rt, &[{v}], &[{e}], &[{s}]);\n}}").unwrap();
            writeln!(all, "    lent_{number}(rt);").unwrap();
            writeln!(stdout, "case {number}\n{answers}").unwrap();
        }
        files.push((format!("src/cases_{}.rt", n + 1), format!("{code}{all}}}\n")));
    }
    files.push(("stdout".to_string(), stdout.replace("\n\n", "\n")));
    files
}

/// A column and calls that are accepted and do not overflow, with the lines that the Rust's answers make; none if too few calls are left.
fn case(d: &mut Dice, kind: &str) -> Option<(Runs, Vec<Call>, String)> {
    let runs = random::column(d, 6);
    let c = model::Column::new(&runs);
    c.check().ok().filter(|&n| n > 0 && runs.ends.len() < 7)?;
    let values = random::values(d, &c);
    let mut session = model::Session::new(&c);
    let mut calls = Vec::new();
    let mut found = [0, 0];
    for call in random::calls_of(d, &c, &values, 30, kind) {
        let before = session;
        // One filter a case; room is left for its calls.
        let again = matches!(call, Call::FilterNew(..)) && session.filter.is_some();
        let most = if call.is_filter() { CALLS } else { CALLS / if kind == "scan" { 1 } else { 2 } };
        if again || !short(&call) || calls.len() >= most {
            continue;
        }
        let said = session.call(&call);
        if matches!(said, Said::Refused(_)) || session.overflow {
            session = before;
            continue;
        }
        found[usize::from(call.is_filter())] += usize::from(matches!(said, Said::Value(_)));
        calls.push(call);
    }
    // Cases that only end say little.
    if (kind == "scan" && found[0] < 5) || (kind != "scan" && (found[0] < 1 || found[1] < 3)) {
        return None;
    }
    let answers = rust::play(&rust::Column::new(&runs), &values, &rust::table(&values), |mut session| {
        let mut window = (0, *runs.ends.last().unwrap());
        calls.iter().map(|call| answered(&mut session, call, &mut window)).collect()
    });
    Some((runs, calls, answers))
}

/// Lists of up to two.
fn short(call: &Call) -> bool {
    match call {
        Call::FilterNew(_, lower, upper) => lower.len() <= 2 && upper.len() <= 2,
        Call::FilterNext(l) | Call::FilterSeek(_, l) => l.lower.len() <= 2 && l.upper.len() <= 2 && l.inputs.len() <= 2,
        _ => true,
    }
}

fn plain<T: ToString>(items: &[T]) -> String {
    items.iter().map(T::to_string).collect::<Vec<_>>().join(", ")
}

/// The line that the program writes for a call, from the Rust's answer, its `pos` and `current` and its private state; the window is the last one asked for.
fn answered(session: &mut rust::Session, call: &Call, window: &mut (u64, u64)) -> String {
    if let Call::Narrow(start, end) = call {
        *window = (*start, *end);
    }
    let said = match session.call(call) {
        Said::Value(v) => v.to_string(),
        Said::Index(i) => i.to_string(),
        Said::None => "none".into(),
        Said::Ok => match call {
            Call::Narrow(..) | Call::Reset => "none".into(),
            _ => String::new(),
        },
        other => unreachable!("{other} of a scan or filter"),
    };
    if matches!(call, Call::Current | Call::Pos | Call::FilterCurrent) {
        return format!("{said}\n");
    }
    let state = match session.call(&Call::Pos) {
        Said::Index(i) => i.to_string(),
        _ if session.inside().started => "ended".into(),
        _ => "fresh".into(),
    };
    let mode = match session.mode().filter(|_| call.is_filter()) {
        None => String::new(),
        Some(mode) => match crate::replay::mode(&mode) {
            Mode::Before => " before".into(),
            Mode::After => " after".into(),
            Mode::Within(None) => " within free".into(),
            Mode::Within(Some(b)) => format!(" within {} {}", if b.exclusive { "below" } else { "up to" }, b.value),
        },
    };
    // What the scan is to carry is the Rust's own `current`.
    let carried = match session.call(&Call::Current) {
        Said::Value(v) => format!(" ({v})"),
        _ => String::new(),
    };
    format!("{said}{mode} | {}..{} {state}{carried}\n", window.0, window.1)
}

/// A call in Rattle. What it hands back is named only if a later call takes it.
fn spelt(call: &Call, later: &[Call]) -> String {
    let taken = !later.is_empty();
    let keep = |name: &str, text: String| if taken { format!("let {name} = {text}") } else { text };
    let bound = |b: &Constant| format!("{}({})", if b.exclusive { "exclusive" } else { "inclusive" }, b.value);
    let name = |b: &Variable| format!("{}({})", if b.exclusive { "named_out" } else { "named" }, b.value);
    let list = |kind: &str, items: Vec<String>| format!("{kind}{}({})", items.len(), items.join(", "));
    let lists = |l: &Lists| {
        let inputs = l.inputs.iter().map(|i| i.map_or("lacks()".to_string(), |v| format!("has({v})"))).collect();
        let (lower, upper) = (l.lower.iter().map(name).collect(), l.upper.iter().map(name).collect());
        format!("{}, {}, {}", list("v", lower), list("v", upper), list("i", inputs))
    };
    match call {
        Call::New => keep("s", "new(rt, v, e, d)".into()),
        Call::Next => keep("s", "next(rt, s, v, e, d)".into()),
        Call::Seek(t) => keep("s", format!("seek(rt, s, v, e, d, {t})")),
        Call::Reset => keep("s", "reset(rt, s, v, e, d)".into()),
        Call::Narrow(a, b) => keep("s", format!("narrow(rt, s, v, e, d, {a}, {b})")),
        Call::Current => "current(rt, s)".into(),
        Call::Pos => "pos(rt, s, v, e, d)".into(),
        Call::FilterNew(_, l, u) => {
            let (l, u) = (list("b", l.iter().map(bound).collect()), list("b", u.iter().map(bound).collect()));
            keep("f", format!("fnew(rt, s, {l}, {u})"))
        }
        Call::FilterNext(l) => keep("f", format!("fnext(rt, f, v, e, d, {})", lists(l))),
        Call::FilterSeek(t, l) => keep("f", format!("fseek(rt, f, v, e, d, {t}, {})", lists(l))),
        Call::FilterCurrent => "fcurrent(rt, f)".into(),
        Call::FilterReset => keep("f", "freset(rt, f)".into()),
        other => unreachable!("{other} is not in the sample"),
    }
}
