//! The picture: a bar a row, as long as the port's time divided by the Rust's, on a scale by powers of ten; a target is a line across its bar.
use crate::clock::Row;
use crate::page::short;
use std::fmt::Write;

const LEFT: f64 = 560.0;
const WIDTH: f64 = 520.0;
const ROW: f64 = 20.0;
const TOP: f64 = 60.0;
/// The scale's ends, as powers of ten.
const FROM: f64 = -2.0;
const TO: f64 = 4.0;

fn x(ratio: f64) -> f64 {
    LEFT + (ratio.log10().clamp(FROM, TO) - FROM) / (TO - FROM) * WIDTH
}

fn bar(text: &mut String, at: usize, row: &Row) -> std::fmt::Result {
    let y = TOP + at as f64 * ROW;
    let colour = match row.met() {
        Some(true) => "#3a8f5c",
        Some(false) => "#c8553d",
        None => "#8a94a0",
    };
    let [low, median, high] = row.ratio;
    let end = x(median);
    writeln!(text, r#"<text x="{}" y="{}" text-anchor="end">{}, {}; {}</text>"#, LEFT - 8.0, y + 13.0, row.group, row.size, row.against)?;
    writeln!(text, r#"<rect x="{LEFT}" y="{}" width="{:.1}" height="12" fill="{colour}"/>"#, y + 3.0, end - LEFT)?;
    writeln!(text, r##"<path d="M{:.1} {}H{:.1}" stroke="#222" stroke-width="1"/>"##, x(low), y + 9.0, x(high))?;
    if let Some(most) = row.target {
        writeln!(text, r##"<path d="M{:.1} {}v16" stroke="#b00020" stroke-width="2"/>"##, x(most), y + 1.0)?;
    }
    let past = row.target.map_or(end, |most| end.max(x(most))).max(x(high));
    writeln!(text, r#"<text x="{:.1}" y="{}">{}</text>"#, past + 5.0, y + 13.0, short(median))
}

fn picture(rows: &[Row]) -> Result<String, std::fmt::Error> {
    let height = TOP + rows.len() as f64 * ROW;
    let mut text = String::new();
    writeln!(
        text,
        r#"<svg xmlns="http://www.w3.org/2000/svg" width="{w}" height="{h}" viewBox="0 0 {w} {h}" font-family="sans-serif" font-size="11">"#,
        w = LEFT + WIDTH + 60.0,
        h = height + 20.0
    )?;
    writeln!(text, r#"<rect width="100%" height="100%" fill="white"/>"#)?;
    let title = "The port's time divided by the Rust's: left of 1 the port is faster. Red line: target. Thin line: quartiles.";
    writeln!(text, r#"<text x="12" y="18" font-size="13">{title}</text>"#)?;
    for power in FROM as i32..=TO as i32 {
        let ratio = 10f64.powi(power);
        let (stroke, label) = (if power == 0 { "#222" } else { "#d5d9de" }, if power < 0 { format!("{ratio:.*}", -power as usize) } else { ratio.to_string() });
        writeln!(text, r#"<path d="M{0:.1} {1}V{height}" stroke="{stroke}"/>"#, x(ratio), TOP - 8.0)?;
        writeln!(text, r#"<text x="{:.1}" y="{}" text-anchor="middle">{label}</text>"#, x(ratio), TOP - 14.0)?;
    }
    for (at, row) in rows.iter().enumerate() {
        bar(&mut text, at, row)?;
    }
    writeln!(text, "</svg>")?;
    Ok(text)
}

pub fn svg(rows: &[Row]) -> String {
    picture(rows).expect("a text takes it")
}
