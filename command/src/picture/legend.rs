//! The text about the part, above the drawing, and the findings beneath it.
use super::colour;
use super::notes::Note;
use super::write::{escaped, number};
use crate::part::{Part, Process};
use crate::picture::vector::{bounds, sub};
use gablemadder::{Report, Severity};
use std::fmt::Write;

pub const LEFT: f64 = 28.0;
const INDENT: f64 = 34.0;
const LINE: f64 = 18.0;
const SIZE: f64 = 13.0;
pub const GREY: &str = "#5b6672";
/// Of the names of faces no more than so many are listed.
const MOST_NAMES: usize = 12;

/// The two lines at the top.
pub fn title(part: &Part, report: Option<&Report>) -> [String; 2] {
    let process = match part.job.process {
        Process::Cnc => "CNC machining",
        Process::Sheet => "Sheet metal",
        Process::Fdm => "FDM printing",
        Process::Sla => "SLA printing",
        Process::Sls => "SLS printing",
    };
    let material = part.job.material.as_ref().map_or(String::new(), |m| format!(", {}", m.name));
    [format!("{process}{material}"), [measures(part, report), tally(report)].join(" · ")]
}

fn measures(part: &Part, report: Option<&Report>) -> String {
    let [lo, hi] = bounds(part.vertices.iter().copied());
    let size = sub(hi, lo).map(number);
    let mut text = format!("{} × {} × {} mm", size[0], size[1], size[2]);
    let Some(report) = report else { return text };
    if let Some(thickness) = report.thickness() {
        let _ = write!(text, " · {} mm thick, {}", number(thickness), counted(report.bends(), "bend"));
    }
    if let Some(height) = report.height() {
        let _ = write!(text, " · printed height {} mm", number(height));
    }
    text
}

/// How many findings there are of each severity.
fn tally(report: Option<&Report>) -> String {
    let Some(report) = report else { return "not checked".to_string() };
    let count = |s: Severity| report.findings().filter(|f| f.severity == s).count() as u64;
    let some: Vec<String> = Severity::ALL.into_iter().filter(|&s| count(s) > 0).map(|s| counted(count(s), &s.name().to_lowercase())).collect();
    if some.is_empty() {
        "no findings".to_string()
    } else {
        some.join(", ")
    }
}

fn counted(n: u64, what: &str) -> String {
    format!("{n} {what}{}", if n == 1 { "" } else { "s" })
}

/// Writes the findings from y on; where they end.
pub fn write(out: &mut String, notes: &[Note], names: &[String], sees: impl Fn(usize) -> bool, y: f64, width: f64) -> f64 {
    let mut y = y;
    let room = width - 2.0 * LEFT - INDENT;
    for note in notes {
        let finding = &note.finding;
        let x = number(LEFT + INDENT);
        let severity = finding.severity;
        badge(out, note.number, severity, y - 4.5);
        let heading = format!("{} · {}", severity.name(), finding.rule.name());
        let places = counted(finding.count, "place");
        let _ = write!(out, "<text x=\"{x}\" y=\"{}\"><tspan font-weight=\"bold\">{}</tspan>", number(y), escaped(&heading));
        let _ = writeln!(out, "<tspan fill=\"{GREY}\" dx=\"8\">{places}</tspan></text>");
        for line in wrapped(finding.message, room) {
            y += LINE;
            let _ = writeln!(out, "<text x=\"{x}\" y=\"{}\">{}</text>", number(y), escaped(&line));
        }
        for line in wrapped(&faces(note, names, &sees), room) {
            y += LINE;
            let _ = writeln!(out, "<text x=\"{x}\" y=\"{}\" fill=\"{GREY}\">{line}</text>", number(y));
        }
        y += LINE + 9.0;
    }
    y
}

fn badge(out: &mut String, text: usize, severity: Severity, y: f64) {
    let text = text.to_string();
    let wide = (8.0 * text.len() as f64 + 10.0).max(super::tags::HEIGHT);
    shape(out, LEFT + 0.5 * wide, y, wide, &text, severity, false);
}

/// A number in a frame of its severity's colour: dashed where it belongs to a face behind.
pub fn shape(out: &mut String, x: f64, y: f64, wide: f64, text: &str, severity: Severity, dashed: bool) {
    let high = super::tags::HEIGHT;
    let (left, top) = (number(x - 0.5 * wide), number(y - 0.5 * high));
    // An error's frame has corners, a warning's hardly any, and a note's none.
    let radius = match severity {
        Severity::Error => 2.0,
        Severity::Warning => 6.0,
        Severity::Note => 9.0,
    };
    let colour = colour::hex(colour::dark(severity));
    let dash = if dashed { " stroke-dasharray=\"3 2\"" } else { "" };
    let _ = write!(out, "<rect x=\"{left}\" y=\"{top}\" width=\"{}\" height=\"{}\" rx=\"{radius}\"", number(wide), number(high));
    let _ = write!(out, " fill=\"#fff\" stroke=\"{colour}\" stroke-width=\"2\"{dash}/>");
    let _ = write!(out, "<text x=\"{}\" y=\"{}\" text-anchor=\"middle\" font-size=\"12\"", number(x), number(y + 4.3));
    let _ = writeln!(out, " font-weight=\"bold\">{text}</text>");
}

/// Which faces a finding names: those that are seen, and those that are not.
fn faces(note: &Note, names: &[String], sees: &impl Fn(usize) -> bool) -> String {
    let (seen, behind): (Vec<usize>, Vec<usize>) = note.faces.iter().partition(|&&face| sees(face));
    let list = |faces: &[usize]| {
        let some: Vec<&str> = faces.iter().take(MOST_NAMES).map(|&face| names[face].as_str()).collect();
        let more = faces.len().saturating_sub(MOST_NAMES);
        if more == 0 {
            some.join(", ")
        } else {
            format!("{} and {more} more", some.join(", "))
        }
    };
    let what = |n: usize| if n == 1 { "Face" } else { "Faces" };
    match (seen.len(), behind.len()) {
        (0, 0) => "The part as a whole".to_string(),
        (n, 0) => format!("{} {}", what(n), list(&seen)),
        (0, n) => format!("Hidden in this view: {} {}", what(n).to_lowercase(), list(&behind)),
        (n, _) => format!("{} {}; hidden in this view: {}", what(n), list(&seen), list(&behind)),
    }
}

/// Lines of a text that fit into a width.
fn wrapped(text: &str, room: f64) -> Vec<String> {
    let mut lines = vec![String::new()];
    for word in text.split(' ') {
        let last = lines.len() - 1;
        let longer = if lines[last].is_empty() { word.to_string() } else { format!("{} {word}", lines[last]) };
        if wide(&longer) <= room || lines[last].is_empty() {
            lines[last] = longer;
        } else {
            lines.push(word.to_string());
        }
    }
    lines
}

/// About how wide a text is: as wide as in the widest of the usual fonts.
fn wide(text: &str) -> f64 {
    let em = |c: char| match c {
        'i' | 'j' | 'l' | '\'' | '|' | '.' | ',' | ':' | ';' | '!' | ' ' => 0.34,
        'f' | 't' | 'r' | 'I' | 'J' | '(' | ')' | '[' | ']' | '-' | '/' => 0.42,
        'm' | 'w' | 'M' | 'W' | '@' | '%' | '+' | '<' | '>' | '=' => 0.96,
        'A'..='Z' => 0.72,
        _ => 0.64,
    };
    text.chars().map(em).sum::<f64>() * SIZE
}

#[cfg(test)]
mod tests {
    use super::*;

    #[test]
    fn a_long_text_is_wrapped() {
        let lines = wrapped("Wall is 0.50 mm thick; a machined part needs at least 0.80 mm", 200.0);
        assert_eq!(lines, ["Wall is 0.50 mm thick; a", "machined part needs at", "least 0.80 mm"]);
        assert_eq!(wrapped("", 10.0), [""]);
        assert_eq!(wrapped("longer than the line", 20.0), ["longer", "than", "the", "line"]);
    }
}
