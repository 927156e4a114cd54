//! The corpus format: what is printed is read back, what is wrong is refused with its line, and a wrong answer is noticed.
use oracle::calls::*;
use oracle::{corpus, replay};

const EXAMPLES: &str = include_str!("examples.corpus");

fn differences(text: &str) -> Vec<String> {
    let mut counts = replay::Counts::default();
    let mut found = Vec::new();
    for case in corpus::cases(text).expect("a corpus") {
        replay::play(&case, &mut counts, &mut |d| found.push(d));
    }
    assert_eq!(counts.differences as usize, found.len());
    found
}

/// P1 to P12, document 02's places, the cases of request 4, scans that do not carry what they stand on, cuts and chained seeks, runs of
/// calls on a scan and on a filter, runs built from lists, presence bitmaps, columns read by profile, exact totals, with every side that is there.
#[test]
fn examples_of_the_documents() {
    let cases = corpus::cases(EXAMPLES).expect("the examples");
    assert_eq!(cases.len(), 80);
    let lines: usize = cases.iter().map(|c| c.lines.len()).sum();
    assert_eq!(lines, 441);
    assert_eq!(differences(EXAMPLES), Vec::<String>::new());
}

/// Every call and answer of the examples prints as it was read.
#[test]
fn printed_as_read() {
    for line in EXAMPLES.lines().filter(|l| l.contains(" -> ")) {
        let (words, answer) = line.split_once(" -> ").unwrap();
        let call = corpus::call(words).unwrap().to_string();
        // what stands in a short form prints in full
        assert!(call == words || words.contains('*') && corpus::call(&call) == corpus::call(words), "{call}");
        let expected = corpus::expected(answer).unwrap();
        let sieve = expected.mode.map(|mode| oracle::model::Sieve { mode, ..oracle::model::Sieve::OPEN });
        let state = expected.scan.map_or(String::new(), |s| corpus::after(&s, sieve.as_ref()));
        let printed = format!("{}{state}", expected.said);
        assert!(printed == answer || answer.contains('*') && corpus::expected(&printed).as_ref() == Ok(&expected), "{printed}");
    }
}

/// Calls that the examples don't have.
#[test]
fn every_call_reads_back() {
    let lists = Lists {
        lower: vec![Bound { value: 0, exclusive: false }],
        upper: vec![Bound { value: 2, exclusive: true }, Bound { value: u64::MAX, exclusive: false }],
        inputs: vec![Some(i64::MIN), None, Some(7)],
    };
    let scan = Scan { start: u64::MAX, end: 3, state: State::At(9), value: Some(i64::MIN) };
    let listing = Listing { to: vec![1, 2], counts: 5, ..Listing::default() };
    for call in [
        Call::FilterNext(lists.clone()),
        Call::FilterSeek(-5, lists.clone()),
        Call::FilterCurrent,
        Call::FilterReset,
        Call::Current,
        Call::Reset,
        Call::Set(scan),
        Call::Set(Scan { state: State::Ended, ..scan }),
        Call::Set(Scan::fresh(0, 7)),
        Call::List(Listing { wins: Wins::Exclusive, ..listing.clone() }),
        Call::List(listing),
        Call::FilterNew(Wins::Inclusive, vec![], vec![]),
        Call::FilterNew(Wins::Exclusive, vec![Bound { value: i64::MIN, exclusive: true }], vec![]),
        Call::FilterSet(Wins::Exclusive, Mode::After),
        Call::FilterSet(Wins::Inclusive, Mode::Before),
        Call::FilterSet(Wins::Inclusive, Mode::Within(None)),
        Call::FilterSet(Wins::Exclusive, Mode::Within(Some(Bound { value: -3, exclusive: true }))),
        Call::Read(vec![], [1, 2, 3]),
        Call::NextRun(usize::MAX),
        Call::SeekRun(vec![i64::MIN, 4], 0),
        Call::FilterNextRun(lists.clone(), 3),
        Call::FilterSeekRun(vec![i64::MAX], lists.clone(), usize::MAX),
        Call::FilterSeekRun(vec![], Lists::default(), 0),
        Call::Diff(i64::MIN, i64::MAX),
        Call::Build(vec![], [0, 1, 2]),
        Call::Build(vec![i64::MAX, -1, -1], [usize::MAX; 3]),
        Call::Import(vec![], 0, [0, 1, 2]),
        Call::Import(vec![0xE5, 1], u64::MAX, [usize::MAX; 3]),
        Call::Export(u64::MAX, 0),
        Call::Carries(255, u64::MAX, 0),
        Call::Profile(Fields { profile: 0, count: u64::MAX, start: u64::MAX, end: 7, carry: false, places: usize::MAX }),
        Call::Totals(vec![], vec![u64::MAX, 1, 1], [2; 5]),
        Call::Totals(vec![0, 5], vec![3], [0, 1, 2, 3, usize::MAX]),
    ] {
        assert_eq!(corpus::call(&call.to_string()), Ok(call.clone()), "{call}");
    }
}

/// Lists in their short forms, and a mode that is left out.
#[test]
fn short_forms() {
    let text = "case 1 short 4\nwidth i64\nstarts 7*2,1~-3*3\nends 1~1*5\nsteps 0*5\nlist - - - - 0 0 -> sum 0 counts - out -\nend\n";
    let case = corpus::cases(text).unwrap().swap_remove(0);
    assert_eq!((case.runs.starts, case.runs.ends), (vec![7, 7, 1, -2, -5], vec![1, 2, 3, 4, 5]));
    assert_eq!(case.lines[0].call, Call::List(Listing::default()));
    assert_eq!(corpus::call("fnew - i1"), corpus::call("fnew crate - i1"));
}

/// Bytes in theirs.
#[test]
fn short_forms_of_bytes() {
    let imports = |bytes: &str| corpus::call(&format!("import {bytes} 8 1 1 1"));
    let of = |bytes: &[u8]| Ok(Call::Import(bytes.to_vec(), 8, [1; 3]));
    assert_eq!(imports("00*3+0A1B*2"), of(&[0, 0, 0, 10, 27, 10, 27]));
    assert_eq!(imports("0A+1b*0+FF*1"), of(&[10, 255]));
    for bad in ["0A+", "+0A", "*3", "0A*", "0A*-1", "0A*2*2", "A*2", "0A++0A", "-+0A", "+A", "0A*99999999999"] {
        assert!(imports(bad).is_err(), "{bad}");
    }
}

/// Leasts and greatests in their short forms, both or neither.
#[test]
fn short_forms_of_edges() {
    let said = |least: &str, greatest: &str| corpus::expected(&format!("all 1 5 5 0 5 counts 0*2,1 least {least} greatest {greatest} high 0*3 low 0*2,5"));
    let written = said("?*2,5", "?,?,5").expect("an answer");
    assert_eq!(written, said("?,?*1,5*1", "?*2,5~3*1").expect("an answer"));
    assert_eq!(written.said.to_string(), "all 1 5 5 0 5 counts 0,0,1 least ?,?,5 greatest ?,?,5 high 0,0,0 low 0,0,5");
    for (least, greatest) in [("?,?,5", "?,5,5"), ("?,5", "?,5"), ("-", "-"), ("?,?,?~1*1", "?*3"), ("?*2,", "?*2,"), ("??,?,5", "?,?,5")] {
        assert!(said(least, greatest).is_err(), "{least} {greatest}");
    }
    assert!(corpus::expected("all 1 5 ? 0 5 counts - least - greatest - high - low -").is_err());
}

/// Each answer of the examples, changed, is noticed.
#[test]
fn a_wrong_answer_is_noticed() {
    let lines: Vec<&str> = EXAMPLES.lines().collect();
    for (i, line) in lines.iter().enumerate().filter(|(_, l)| l.contains(" -> ")) {
        let (words, answer) = line.split_once(" -> ").unwrap();
        // Another answer in place, and another index or state, or another value carried, after it.
        let mut wrong = vec![answer.replacen(answer.split(" | ").next().unwrap(), "v 12345", 1)];
        if let Some((said, state)) = answer.split_once(" | ") {
            for (at, others) in [(2, ["8", "7"]), (3, ["-", "12345"])] {
                let mut numbers: Vec<&str> = state.split(' ').collect();
                numbers[at] = others[usize::from(numbers[at] == others[0])];
                wrong.push(format!("{said} | {}", numbers.join(" ")));
            }
        }
        // Another least, greatest, high or low, of one window or of all.
        if answer.starts_with("all ") {
            let words: Vec<&str> = answer.split(' ').collect();
            for at in [1, 2, 3, 4, 5, 7, 9, 11, 13, 15].into_iter().filter(|at| words[*at] != "-") {
                let mut words = words.clone();
                let changed = words[at].rsplit_once(',').map_or("6".into(), |(before, _)| format!("{before},6"));
                words[at] = &changed;
                wrong.push(words.join(" "));
            }
        }
        for wrong in wrong {
            let changed = format!("{words} -> {wrong}");
            // The case that it stands in, by itself.
            let from = lines[..i].iter().rposition(|l| l.starts_with("case ")).unwrap();
            let to = i + lines[i..].iter().position(|l| *l == "end").unwrap();
            let text = [&lines[from..i], &[changed.as_str()], &lines[i + 1..=to]].concat();
            // A least without its greatest is no answer at all.
            let unread = corpus::cases(&text.join("\n")).is_err();
            assert!(unread || !differences(&text.join("\n")).is_empty(), "{changed}");
        }
    }
}

/// What is no file of the format is refused, with the line.
#[test]
fn bad_files() {
    let head = "case 1 scan both\nstarts 1\nends 1\nsteps 0\n";
    for (text, line) in [
        ("next -> none\n", "line 1"),
        ("case 1 scan maybe\nend\n", "line 1"),
        ("case 1 scam both\nend\n", "line 1"),
        (&format!("{head}next\nend\n"), "line 5"),
        (&format!("{head}nexxt -> none\nend\n"), "line 5"),
        (&format!("{head}seek 9223372036854775808 -> none\nend\n"), "line 5"),
        (&format!("{head}next -> perhaps\nend\n"), "line 5"),
        (&format!("{head}next -> v 1 | 0 1\nend\n"), "line 5"),
        (&format!("{head}next -> v 1 | 0 1 0\nend\n"), "line 5"),
        (&format!("{head}next -> v 1 | 0 1 0 B\nend\n"), "line 5"),
        (&format!("{head}next -> v 1 | 0 1 0 1 X\nend\n"), "line 5"),
        (&format!("{head}set 0 1 0 -> ok\nend\n"), "line 5"),
        ("case 1 scan both\nstarts 1,,2\nend\n", "line 2"),
        ("case 1 strict four\nend\n", "line 1"),
        ("case 1 strict 4\nstarts 9223372036854775807~1*2\nend\n", "line 2"),
        ("case 1 strict 4\nwidth i32\nend\n", "line 2"),
        (&format!("{head}fnew loose - - -> ok\nend\n"), "line 5"),
        (&format!("{head}fset strict B x1 -> ok\nend\n"), "line 5"),
        (&format!("{head}fset strict W -> ok\nend\n"), "line 5"),
        (&format!("{head}list 1 0 1 - - 1 1 -> r 5\nend\n"), "line 5"),
        (&format!("{head}totals 0 1 1 1 -> r 5\nend\n"), "line 5"),
        (&format!("{head}totals 0 -1 1 -> r 5\nend\n"), "line 5"),
        (head, "ends inside a case"),
    ] {
        let error = corpus::cases(text).expect_err(text);
        assert!(error.contains(line), "{error}");
    }
}
