//! The table, and its place in the page.
use crate::clock::{Clock, Row};
use std::fmt::Write;
use std::process::Command;

const BEGIN: &str = "<!-- figures: written by scripts/bench -->";
const END: &str = "<!-- end of the figures -->";

/// A number with its thousands set apart.
pub fn grouped(number: u64) -> String {
    let digits = number.to_string();
    let mut text = String::new();
    for (at, digit) in digits.chars().enumerate() {
        if at > 0 && (digits.len() - at).is_multiple_of(3) {
            text.push(',');
        }
        text.push(digit);
    }
    text
}

/// Three digits that say something.
pub fn short(number: f64) -> String {
    match number {
        n if n >= 100.0 => format!("{n:.0}"),
        n if n >= 10.0 => format!("{n:.1}"),
        n if n >= 0.1 => format!("{n:.2}"),
        n => format!("{n:.3}"),
    }
}

/// A time of a unit; of a byte, as megabytes a second.
fn figure(row: &Row, time: f64) -> String {
    if row.unit == "byte" { format!("{} MB/s", grouped((1000.0 / time) as u64)) } else { format!("{} ns", short(time)) }
}

fn each(unit: &str) -> &'static str {
    match unit {
        "element" => " an element",
        "run" => " a run",
        "call" => " a call",
        "target" => " a target",
        "value" => " a value",
        "record" => " a record",
        _ => "",
    }
}

fn line(row: &Row) -> String {
    let [low, median, high] = row.ratio.map(short);
    let target = row.target.map_or("".to_string(), |most| format!("≤ {most}"));
    let met = match row.met() {
        Some(true) => "met",
        Some(false) => "**missed**",
        None => "",
    };
    format!(
        "| {} | {} | {} | {}{} | {} | **{median}** ({low} to {high}) | {target} | {met} |",
        row.group,
        row.size,
        row.against,
        figure(row, row.port),
        each(row.unit),
        figure(row, row.rust),
    )
}

pub fn table(clock: &Clock) -> String {
    let mut text = format!(
        "{}; {}. {} rounds.\n\n\
         | What | Size | Against | Port | Rust | Ratio (quartiles) | Target | |\n|---|---|---|---|---|---|---|---|\n",
        processor(),
        compiler(),
        clock.rounds
    );
    for row in &clock.rows {
        writeln!(text, "{}", line(row)).expect("a text takes it");
    }
    let missed = clock.rows.iter().filter(|row| row.met() == Some(false)).count();
    let asked = clock.rows.iter().filter(|row| row.target.is_some()).count();
    write!(text, "\n{} of {asked} targets met.", asked - missed).expect("a text takes it");
    text
}

fn processor() -> String {
    let about = std::fs::read_to_string("/proc/cpuinfo").unwrap_or_default();
    let name = about.lines().find(|line| line.starts_with("model name")).and_then(|line| line.split_once(": "));
    name.map_or("an unnamed processor", |(_, name)| name).to_string()
}

fn compiler() -> String {
    let said = Command::new("rustc").arg("--version").output().ok().and_then(|out| String::from_utf8(out.stdout).ok());
    said.map_or("rustc of no known version".to_string(), |text| text.trim().to_string())
}

/// Puts the table between the page's markers and leaves the rest.
pub fn write(file: &str, table: &str) {
    let page = std::fs::read_to_string(file).expect("the page");
    let (before, rest) = page.split_once(BEGIN).expect("the page's first marker");
    let (_, after) = rest.split_once(END).expect("the page's second marker");
    std::fs::write(file, format!("{before}{BEGIN}\n\n{table}\n\n{END}{after}")).expect("the page");
}
