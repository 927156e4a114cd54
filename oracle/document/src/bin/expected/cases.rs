//! The cases of scripts/command-test: the files, the calls that the model answers, and those that are wrong.
use crate::command::{bytes, Stored, MOST};
use crate::samples::{bark, damaged, record, written};
use crate::{d, put};
use document::calls::Runs;
use std::path::Path;

/// Calls that the model answers: a line each, its words.
const CALLS: &str = include_str!("command.calls");

/// Calls with a wrong word, or one too few: the words, and which of them is wrong (from 1 on; one more than there are: it is missing).
const USAGE: [(&str, usize); 104] = [
    ("", 1),
    ("check", 2),
    ("build", 2),
    ("build few few", 3),
    ("build few 3", 3),
    ("build few --format csv", 3),
    ("build few --count", 3),
    ("build --numbers few", 2),
    ("import", 2),
    ("import bits", 3),
    ("import bits 10", 4),
    ("import bits x -", 3),
    ("import bits -1 -", 3),
    ("import bits 18446744073709551616 -", 3),
    ("import bits 10 - -", 5),
    ("import bits 10 made more", 5),
    ("import bits 10 --out", 4),
    ("import bits 10 - --format csv", 5),
    ("export", 2),
    ("export bark 201", 4),
    ("export bark 2.5 made", 3),
    ("export bark 201 - --rising", 5),
    ("export bark 201 -- --made more", 6),
    ("audit", 2),
    ("audit bark", 3),
    ("audit bark x", 3),
    ("audit bark -1", 3),
    ("audit bark 18446744073709551616", 3),
    ("audit bark 201 0", 5),
    ("audit bark 201 0 x", 5),
    ("audit bark 201 0 5 9", 6),
    ("audit bark 201 --profile", 5),
    ("audit bark 201 --profile x", 5),
    ("audit bark 201 --profile=", 4),
    ("audit bark 201 --profile 1 --profile 2", 6),
    ("audit bark 201 --format xml", 5),
    ("audit bark 201 --rising", 4),
    ("audit bark 201 --from 3", 4),
    ("list bark --format html", 4),
    ("find bark 3 --format=html", 4),
    ("check bark --profile 1", 3),
    ("totals", 2),
    ("totals bark 1", 4),
    ("totals bark 1 2 3", 6),
    ("totals bark 1 x", 4),
    ("totals bark -1 2", 3),
    ("totals bark 1 18446744073709551616", 4),
    ("totals bark 1 2 --rising", 5),
    ("totals bark --from 1", 3),
    ("totals bark 0 2 --format xml", 6),
    ("totals bark -- 1 --format", 5),
    ("list", 2),
    ("find", 2),
    ("find bark", 3),
    ("look bark", 1),
    ("check bark bark", 3),
    ("list bark 1", 4),
    ("list bark 1 x", 4),
    ("list bark -1 5", 3),
    ("list bark 1 5 9", 5),
    ("list bark --from", 4),
    ("list bark --from x", 4),
    ("list bark --from 1 --above 2", 6),
    ("list bark --to 1 --below 2", 6),
    ("list bark --from 1 --from 1", 5),
    ("list bark --over 1", 3),
    ("list bark 18446744073709551616 1", 3),
    ("list bark 1 5 --from 9223372036854775808", 6),
    ("list bark --from -9223372036854775809", 4),
    ("list bark --from --to 3", 4),
    ("find bark 3 x", 4),
    ("find bark 3.5", 3),
    ("find bark -", 3),
    ("find bark +3", 3),
    ("find bark 99999999999999999999", 3),
    ("find nofile x", 3),
    ("find damaged x", 3),
    ("check bark --rising=1", 3),
    ("check bark --rising --rising", 4),
    ("check bark --filled", 3),
    ("check bark --rise", 3),
    ("check bark -r", 3),
    ("check bark --format", 4),
    ("check bark --format xml", 4),
    ("check bark --format=", 3),
    ("check bark --format=json --format=csv", 4),
    ("check -- bark --rising", 4),
    ("check --", 3),
    ("list bark --from=x", 3),
    ("list bark --from=", 3),
    ("list bark --from=1 --above=2", 4),
    ("list bark --rising", 3),
    ("list bark --from = 3", 4),
    ("find bark --filled", 4),
    ("find bark 3 --filled --count", 5),
    ("find bark 3 --from 3", 4),
    ("find bark 3 --numbers few", 5),
    ("find bark --numbers few 3", 4),
    ("find bark --numbers", 4),
    ("find bark --numbers=", 3),
    ("find bark --numbers --count", 4),
    ("find bark --numbers few --numbers few", 5),
    ("find - --numbers -", 4),
    ("find bark -- 3 --count", 5),
];

/// A case: the words, what is on standard input, the answer, and words that standard error has to have.
type Case = (Vec<String>, Vec<u8>, Stored, String);

/// The records that the calls name.
fn files() -> Vec<(&'static str, Vec<u8>)> {
    let bark = bark();
    let long = Runs::of(&[
        (i64::MIN, 32767, 3),
        (-5000, 3, 2048),
        (5000, 1, 2047),
        (7047, 1, 1),
        (8000, 7, 3000),
        (i64::MAX - 1, 1, 2),
    ]);
    let most: Vec<_> = (0..4096).map(|i| (7 * i, 0, 1)).collect();
    vec![
        ("damaged", damaged()),
        ("long", written(&long)),
        ("falling", written(&d())),
        ("after", [&bark[..], b"garbage"].concat()),
        ("twice", [&bark[..], &bark[..]].concat()),
        ("zero", [&bark[..], &[0]].concat()),
        ("mosts", written(&Runs::of(&most)).repeat(2)),
        ("far", [&bark[..], &[7; 200_000]].concat()),
        ("none", record(2, 1, &[])),
        // its name is a number
        ("7", bark.clone()),
        ("greatest", record(16, 1, &[(i64::MAX, 0, u32::MAX)])),
        ("least", record(16, 1, &[(i64::MIN, 0, u32::MAX)])),
        ("zeroes", record(30, 1, &[(0, 0, 1), (-1, 0, 9)])),
        // sums of each number of digits: 1, 10, 100 ..
        ("tens", written(&Runs::of(&(0..19).map(|k| (10i64.pow(k), 0, 1)).collect::<Vec<_>>()))),
        ("nines", written(&Runs::of(&(1..19).map(|k| (1 - 10i64.pow(k), 0, 1)).collect::<Vec<_>>()))),
        ("most", written(&Runs::of(&most))),
        ("over", record(30, 1, &[(0, 0, u32::MAX), (0, 0, 1)])),
        ("full", record(16, 1, &[(i64::MIN, 32767, u32::MAX)])),
        ("reach", record(16, 1, &[(i64::MAX, 1, 2)])),
        ("kind", record(16, 2, &[(1, 1, 1)])),
        ("size", [&17u32.to_le_bytes()[..], &[1; 17]].concat()),
        ("short", [&1u32.to_le_bytes()[..], &[0; 9]].concat()),
        ("large", [&57360u32.to_le_bytes()[..], &[0; 57360]].concat()),
        ("cut", bark[..bark.len() - 1].to_vec()),
        ("three", bark[..3].to_vec()),
        ("empty", vec![]),
        ("bark", bark),
        ("few", b"3\n4\n5\n".to_vec()),
        ("unended", b"3\r\n4\r\n-5".to_vec()),
        ("nothing", vec![]),
        ("word", b"3\n4\nfive\n6\n".to_vec()),
        ("last", b"3\n4\n5 ".to_vec()),
        ("blank", b"3\n\n5\n".to_vec()),
        ("out", b"9223372036854775807\n9223372036854775808\n".to_vec()),
        ("zeros", [&[b'0'; 63][..], b"5\n", &[b'0'; 64], b"5\n"].concat()),
        ("many", (-700..2300).map(|k| format!("{k}\n")).collect::<String>().into_bytes()),
        ("wide", (0..1500).map(|k| format!("{}\n", i64::MIN + k)).collect::<String>().into_bytes()),
        // every order of neighbours: up, down, the same
        ("shuffled", (0..1500).map(|k| format!("{}\n", (k * 7919 % 1511 - 300) / 2 * 7)).collect::<String>().into_bytes()),
        ("downward", (0..600).rev().map(|k| format!("{k}\n")).collect::<String>().into_bytes()),
        ("edges", format!("{}\n{}\n{}\n-32768\n0\n32767\n65535\n32767\n-1\n", i64::MIN, i64::MAX, i64::MIN).into_bytes()),
        ("singles", (0..4096).map(|k| format!("{}\n", k * 40_000)).collect::<String>().into_bytes()),
        ("single", (0..4097).map(|k| format!("{}\n", k * 40_000)).collect::<String>().into_bytes()),
        ("pairs", (0..8192).map(|k| format!("{}\n", k / 2 * 40_000 + k % 2)).collect::<String>().into_bytes()),
        ("held", b"7\n".repeat(MOST)),
        ("beyond", [&b"7\n".repeat(MOST)[..], b"7"].concat()),
        ("bits", vec![0xE5, 0x01]),
        ("padded", vec![0xE5, 0xFD, 0, 0, 0, 0, 0, 0xFF]),
        ("ones", vec![0xFF; 65_536]),
        ("more", vec![0xFF; 65_537]),
        ("alternate", vec![0x55; 65_536]),
        // two records a run: 4,096 runs in 2,731 bytes
        ("irregular", vec![0x13; 65_536]),
        ("late", (0..2000).map(|k| format!("{k}\n")).chain(["x\n".into()]).collect::<String>().into_bytes()),
    ]
}

/// Writes the files, and a folder a case: 'words' (one a line), 'stdin', 'stdout', 'last' (the last line on standard error), 'said' (words that
/// standard error has to have) and 'status'. In a call `< NAME` is what standard input holds.
pub fn cases(folder: &Path) {
    let files = files();
    files.iter().for_each(|(name, data)| put(&folder.join(name), data));
    let split = |line: &str| line.split_whitespace().map(String::from).collect::<Vec<_>>();
    let held = |name: &str| files.iter().find(|(n, _)| *n == name).unwrap_or_else(|| panic!("no file {name}")).1.clone();
    let mut rows: Vec<Case> = Vec::new();
    // as many windows as there may be, and one more
    let many = [256, 257].map(|n| format!("totals long{}", (0..n).map(|i| format!(" {} {}", i * 7, i * 13)).collect::<String>()));
    for line in CALLS.lines().chain(many.iter().map(String::as_str)) {
        let (line, input) = line.split_once(" < ").map_or((line, vec![]), |(line, name)| (line, held(name)));
        let words = split(line);
        let read = |name: &str| if name == "-" { input.clone() } else { held(name) };
        let (answer, said) = bytes(&words, &read);
        rows.push((words, input, answer, said));
    }
    for (line, wrong) in USAGE {
        let words = split(line);
        let said = words.get(wrong - 1).map_or("a word is missing at the end".into(), |word| format!("word {wrong}, '{word}', is n"));
        rows.push((words, vec![], (vec![], "usage".into(), 64), said));
    }
    rows.extend(without_file().map(|words| (words, vec![], (vec![], "no file".into(), 66), String::new())));
    for (i, (words, input, (out, last, status), said)) in rows.iter().enumerate() {
        let case = folder.join(format!("case{i:03}"));
        std::fs::create_dir(&case).unwrap_or_else(|e| panic!("{}: {e}", case.display()));
        let lines = |words: &[String]| words.iter().map(|w| format!("{w}\n")).collect::<String>();
        put(&case.join("words"), lines(words));
        put(&case.join("stdin"), input);
        put(&case.join("stdout"), out);
        put(&case.join("last"), lines(&[last.clone()][usize::from(last.is_empty())..]));
        put(&case.join("said"), said);
        put(&case.join("status"), format!("{status}\n"));
    }
}

/// Files that are not there, a folder, no name, and names that are too long.
fn without_file() -> [Vec<String>; 15] {
    let check = |name: &str| vec!["check".to_string(), name.to_string()];
    let find = ["find", "nofile", "3"].map(String::from).to_vec();
    let list = ["list", "nofile"].map(String::from).to_vec();
    let numbers = ["find", "bark", "--numbers", "nofile", "--format=csv"].map(String::from).to_vec();
    let folder = ["find", "bark", "--numbers=."].map(String::from).to_vec();
    let build = |name: &str| vec!["build".to_string(), name.to_string()];
    let bitmap = |mode: &str, name: &str| [mode, name, "8", "-"].map(String::from).to_vec();
    let [import, directory, export] = [bitmap("import", "nofile"), bitmap("import", "."), bitmap("export", "nofile")];
    let totals = ["totals", "nofile", "0", "3"].map(String::from).to_vec();
    let [long, longer] = [300, 5000].map(|n| check(&"x".repeat(n)));
    [totals, import, directory, export, build("nofile"), build("."), numbers, folder, check("nofile"), list, find, check("."), check(""), long, longer]
}
