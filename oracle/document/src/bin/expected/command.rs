//! What `./loftsplice` must answer, by the model: for the cases of scripts/command-test, and the stored output of crates/command.
use crate::samples::{bark, written};
use crate::{ask, root};
use document::calls::{Bound, Call, Listing, Runs, Said, Total};
use document::model::{Column, Session};

const NAMES: [&str; 18] = [
    "SHAPE", "ENDS", "REACH", "INDEX", "WINDOW", "SCAN", "ORDER", "BOUNDS", "INPUT", "ROOM", "CUT",
    "KIND", "SIZE", "COUNT", "RANGE", "PROFILE", "FALLING", "TOTAL",
];

/// Standard output, the last line on standard error, the exit status.
pub type Answer = (String, String, u32);

/// The same where standard output is a record, or a bitmap.
pub type Stored = (Vec<u8>, String, u32);

/// How many numbers `build` holds.
pub const MOST: usize = 524_288;

/// crates/command/stdout, by the words of crates/command/args.
pub fn stdout() -> String {
    let args = std::fs::read_to_string(root().join("crates/command/args")).expect("crates/command/args");
    let words: Vec<String> = args.lines().map(String::from).collect();
    answer(&words, &|name| if name == "bark.rec" { bark() } else { panic!("no file {name}") }).0 .0
}

#[derive(Clone, Copy, PartialEq)]
enum Format {
    Lines,
    Csv,
    Json,
}

/// What the words of a call ask for: operands, options with a value, options without.
struct Asked {
    operands: Vec<String>,
    valued: Vec<(String, String)>,
    flags: Vec<String>,
}

impl Asked {
    fn new(words: &[String]) -> Asked {
        let (mut asked, mut plain) = (Asked { operands: vec![], valued: vec![], flags: vec![] }, false);
        let mut rest = words.iter();
        while let Some(word) = rest.next() {
            let option = !plain && word.starts_with("--");
            match word.split_once('=') {
                _ if !option => asked.operands.push(word.clone()),
                _ if word == "--" => plain = true,
                Some((name, value)) => asked.valued.push((name.into(), value.into())),
                None if ["--rising", "--filled", "--count"].contains(&word.as_str()) => asked.flags.push(word.clone()),
                None => asked.valued.push((word.clone(), rest.next().expect("a value").clone())),
            }
        }
        asked
    }

    fn value(&self, name: &str) -> Option<&str> {
        self.valued.iter().find(|(n, _)| n == name).map(|(_, value)| value.as_str())
    }

    fn flag(&self, name: &str) -> bool {
        self.flags.iter().any(|f| f == name)
    }

    fn format(&self) -> Format {
        match self.value("--format") {
            None => Format::Lines,
            Some("csv") => Format::Csv,
            Some("json") => Format::Json,
            Some(other) => panic!("'{other}' is no format"),
        }
    }
}

fn refused(out: String, number: u32) -> Answer {
    (out, format!("refused {number} {}", NAMES[number as usize - 1]), number)
}

/// The column of a file, which holds one record; or the answer where there is none.
fn opened(data: &[u8]) -> Result<Runs, (Answer, String)> {
    match ask(&Runs::default(), Call::Read(data.to_vec(), [4096; 3])) {
        Said::Read { used, runs } if used as usize == data.len() => Ok(runs),
        Said::Read { used, .. } => Err(((String::new(), format!("{used} of {} bytes used", data.len()), 65), "bytes follow it".into())),
        Said::Refused(number) => Err((refused(String::new(), number), String::new())),
        other => unreachable!("{other} of a reading"),
    }
}

/// The answer to a call, and words that standard error has to have.
pub fn answer(words: &[String], read: &dyn Fn(&str) -> Vec<u8>) -> (Answer, String) {
    let asked = Asked::new(&words[1..]);
    let runs = match opened(&read(&asked.operands[0])) {
        Ok(runs) => runs,
        Err(ended) => return ended,
    };
    match words[0].as_str() {
        "check" => (checked(&runs, &asked), String::new()),
        "list" => (listed(&runs, &asked).unwrap_or_else(|number| refused(String::new(), number)), String::new()),
        "find" => found(&runs, &asked, read),
        "totals" => (totalled(&runs, &asked).unwrap_or_else(|number| refused(String::new(), number)), String::new()),
        mode => panic!("'{mode}' is no mode"),
    }
}

fn checked(runs: &Runs, asked: &Asked) -> Answer {
    let column = Column::new(runs);
    let n = column.check().expect("it was read");
    let (r, rises) = (runs.ends.len(), column.rises(0, n));
    let element = |i: u64, none: &str| column.element(i).map_or(none.into(), |v| v.to_string());
    let ends = |none: &str| (element(0, none), element(n.wrapping_sub(1), none));
    let yes = if rises { "yes" } else { "no" };
    let out = match asked.format() {
        Format::Lines => {
            let (first, last) = ends("none");
            format!("sound\nruns {r}\nlength {n}\nfirst {first}\nlast {last}\nrising {yes}\n")
        }
        Format::Csv => {
            let (first, last) = ends("");
            format!("sound,runs,length,first,last,rising\nyes,{r},{n},{first},{last},{yes}\n")
        }
        Format::Json => {
            let (first, last) = ends("null");
            format!("{{\"sound\":true,\"runs\":{r},\"length\":{n},\"first\":{first},\"last\":{last},\"rising\":{rises}}}\n")
        }
    };
    if asked.flag("--rising") && !rises {
        return refused(out, 7);
    }
    (out, String::new(), 0)
}

/// Items of a list, one a line: in JSON a bracket or a comma before each, and a bracket after them.
fn items(format: Format, head: &str, items: &[String], whole: bool) -> String {
    match format {
        Format::Lines => items.iter().map(|item| format!("{item}\n")).collect(),
        Format::Csv => format!("{head}\n{}", items.iter().map(|item| format!("{item}\n")).collect::<String>()),
        Format::Json => {
            let rows: String = items.iter().enumerate().map(|(i, item)| format!("{}{item}\n", if i == 0 { "[" } else { "," })).collect();
            rows + if !whole { "" } else if items.is_empty() { "[]\n" } else { "]\n" }
        }
    }
}

/// `[START END] [--from V | --above V] [--to V | --below V]`
fn listed(runs: &Runs, asked: &Asked) -> Result<Answer, u32> {
    let length = Column::new(runs).check()?;
    let window = asked.operands[1..].iter().map(|word| word.parse::<u64>().expect("a number")).collect::<Vec<_>>();
    let (start, end) = if window.is_empty() { (0, length) } else { (window[0], window[1]) };
    let bound = |name: &str, exclusive: bool| asked.value(name).map(|v| Bound { value: v.parse().expect("a number"), exclusive });
    let lower = bound("--from", false).or(bound("--above", true)).into_iter().collect();
    let upper = bound("--to", false).or(bound("--below", true)).into_iter().collect();
    // The command has room for all that a window holds.
    let room = if end <= length { end.saturating_sub(start) as usize } else { 0 };
    match ask(runs, Call::List(Listing { from: vec![start], to: vec![end], lower, upper, room, counts: 1, ..Listing::default() })) {
        Said::Listed { out, .. } => {
            let elements: Vec<String> = out.iter().map(|v| v.to_string()).collect();
            Ok((items(asked.format(), "element", &elements, true), String::new(), 0))
        }
        Said::Refused(number) => Err(number),
        other => unreachable!("{other} of a listing"),
    }
}

/// The numbers of a file up to the first line that is none, and that line's number and text.
fn numbers(text: &[u8]) -> (Vec<i64>, Option<(usize, String)>) {
    let text = std::str::from_utf8(text).expect("text");
    let mut numbers = vec![];
    for (i, line) in text.split_inclusive('\n').enumerate() {
        let line = line.strip_suffix('\n').unwrap_or(line);
        let word = line.strip_suffix('\r').unwrap_or(line);
        match word.parse() {
            Ok(k) if line.len() <= 64 && !word.starts_with('+') => numbers.push(k),
            _ => return (numbers, Some((i + 1, line[..line.len().min(64)].into()))),
        }
    }
    (numbers, None)
}

fn found(runs: &Runs, asked: &Asked, read: &dyn Fn(&str) -> Vec<u8>) -> (Answer, String) {
    let column = Column::new(runs);
    let (keys, wrong) = match asked.value("--numbers") {
        Some(name) => numbers(&read(name)),
        None => (asked.operands[1..].iter().map(|w| w.parse().expect("a number")).collect(), None),
    };
    if let Said::Refused(number) = Session::new(&column).call(&Call::Seek(i64::MIN)) {
        return (refused(String::new(), number), String::new());
    }
    let (format, mut rows, mut carried) = (asked.format(), vec![], 0);
    for k in &keys {
        let mut scan = Session::new(&column);
        let index = match (scan.call(&Call::Seek(*k)), scan.call(&Call::Pos)) {
            (Said::Value(v), Said::Index(i)) if v == *k => Some(i),
            _ => None,
        };
        carried += usize::from(index.is_some());
        rows.extend(row(*k, index, format, asked.flag("--filled")));
    }
    let count = asked.flag("--count");
    let mut out = if count { String::new() } else { items(format, "number,answer,index", &rows, wrong.is_none()) };
    if let Some((line, text)) = wrong {
        return ((out, "no number".into(), 65), format!("line {line}, '{text}', is no number"));
    }
    let filled = keys.len() - carried;
    if count {
        out = match format {
            Format::Lines => format!("carried {carried}\nfilled {filled}\n"),
            Format::Csv => format!("carried,filled\n{carried},{filled}\n"),
            Format::Json => format!("{{\"carried\":{carried},\"filled\":{filled}}}\n"),
        };
    }
    ((out, String::new(), 0), String::new())
}

fn row(k: i64, index: Option<u64>, format: Format, filled: bool) -> Option<String> {
    match (index, format) {
        (Some(_), _) if filled => None,
        (Some(i), Format::Lines) => Some(format!("{k} carried at index {i}")),
        (Some(i), Format::Csv) => Some(format!("{k},carried,{i}")),
        (Some(i), Format::Json) => Some(format!("{{\"number\":{k},\"answer\":\"carried\",\"index\":{i}}}")),
        (None, Format::Lines) => Some(format!("{k} filled")),
        (None, Format::Csv) => Some(format!("{k},filled,")),
        (None, Format::Json) => Some(format!("{{\"number\":{k},\"answer\":\"filled\"}}")),
    }
}

/// `totals FILE [START END]..`: a row a window, and one over all; without a window those of the whole column.
fn totalled(runs: &Runs, asked: &Asked) -> Result<Answer, u32> {
    let edges: Vec<u64> = asked.operands[1..].iter().map(|w| w.parse().expect("a number")).collect();
    let whole = [0, Column::new(runs).check()?];
    let edges = if edges.is_empty() { &whole[..] } else { &edges };
    let (from, to): (Vec<u64>, Vec<u64>) = edges.chunks(2).map(|edge| (edge[0], edge[1])).unzip();
    let (all, windows) = match ask(runs, Call::Totals(from.clone(), to.clone(), [from.len(); 5])) {
        Said::Totalled { all, windows } => (all, windows),
        Said::Refused(number) => return Err(number),
        other => unreachable!("{other} of totals"),
    };
    let places: Vec<(u64, u64)> = from.into_iter().zip(to).collect();
    let out = match asked.format() {
        Format::Lines => {
            let rows: String = places.iter().zip(&windows).map(|((s, e), t)| format!("{s} {e} {}\n", total(t, Format::Lines))).collect();
            format!("{rows}all {}\n", total(&all, Format::Lines))
        }
        Format::Csv => {
            let rows: String = places.iter().zip(&windows).map(|((s, e), t)| format!("{s},{e},{}\n", total(t, Format::Csv))).collect();
            format!("start,end,count,least,greatest,sum\n{rows},,{}\n", total(&all, Format::Csv))
        }
        Format::Json => {
            let row = |((s, e), t): (&(u64, u64), &Total)| format!("{{\"start\":{s},\"end\":{e},{}}}\n", total(t, Format::Json));
            let rows: Vec<String> = places.iter().zip(&windows).map(row).collect();
            format!("{{\"windows\":\n[{}],\"all\":{{{}}}}}\n", rows.join(","), total(&all, Format::Json))
        }
    };
    Ok((out, String::new(), 0))
}

/// Count, least, greatest and sum, the sum as one number.
fn total(t: &Total, format: Format) -> String {
    let (count, sum) = (t.count, i128::from(t.high) * 4_294_967_296 + i128::from(t.low));
    let edge = |none: &str, value: Option<i64>| value.map_or(none.into(), |v| v.to_string());
    let edges = |none: &str| (edge(none, t.edges.map(|e| e.0)), edge(none, t.edges.map(|e| e.1)));
    match format {
        Format::Lines => {
            let (least, greatest) = edges("none");
            format!("count {count} least {least} greatest {greatest} sum {sum}")
        }
        Format::Csv => {
            let (least, greatest) = edges("");
            format!("{count},{least},{greatest},{sum}")
        }
        Format::Json => {
            let (least, greatest) = edges("null");
            format!("\"count\":{count},\"least\":{least},\"greatest\":{greatest},\"sum\":{sum}")
        }
    }
}

/// What a call writes that gives bytes.
fn given(((out, last, status), said): (Answer, String)) -> (Stored, String) {
    ((out.into_bytes(), last, status), said)
}

/// Any call, by its first word.
pub fn bytes(words: &[String], read: &dyn Fn(&str) -> Vec<u8>) -> (Stored, String) {
    match words[0].as_str() {
        "build" => built(&read(&Asked::new(&words[1..]).operands[0])),
        "import" | "export" => bitmap(words, read),
        _ => given(answer(words, read)),
    }
}

/// `import BITMAP COUNT -`, `export FILE COUNT -`: the record, or the bitmap, and words that standard error has to have.
fn bitmap(words: &[String], read: &dyn Fn(&str) -> Vec<u8>) -> (Stored, String) {
    let asked = Asked::new(&words[1..]);
    let (data, count) = (read(&asked.operands[0]), asked.operands[1].parse().expect("a number"));
    let said = if words[0] == "import" {
        ask(&Runs::default(), Call::Import(data, count, [4096; 3]))
    } else {
        match opened(&data) {
            Ok(runs) => ask(&runs, Call::Export(count, 65_536)),
            Err(ended) => return given(ended),
        }
    };
    match said {
        Said::Imported { runs, .. } => ((written(&runs), String::new(), 0), String::new()),
        Said::Written(bytes) => ((bytes, String::new(), 0), String::new()),
        Said::Refused(number) => given((refused(String::new(), number), String::new())),
        other => unreachable!("{other} of a bitmap"),
    }
}

/// `build FILE`: the record of the column that is built from the numbers, by document 02's rule, and words that standard error has to have.
fn built(text: &[u8]) -> (Stored, String) {
    let (values, wrong) = numbers(text);
    if values.len() > MOST {
        return ((vec![], "too many numbers".into(), 65), "over 524,288 numbers".into());
    }
    if let Some((line, text)) = wrong {
        return ((vec![], "no number".into(), 65), format!("line {line}, '{text}', is no number"));
    }
    match ask(&Runs::default(), Call::Build(values, [4096; 3])) {
        Said::Built(runs) => ((written(&runs), String::new(), 0), String::new()),
        Said::Refused(number) => given((refused(String::new(), number), "over 4,096 runs".into())),
        other => unreachable!("{other} of a building"),
    }
}
