//! The answer to a file as one line of JSON.
use crate::place::Told;
use gablemadder::{Finding, Report};

/// A report: `file`, `findings`, `thickness`, `bends` and `height`.
pub fn report(file: &str, report: &Report) -> String {
    let findings: Vec<String> = report.findings().map(|found| finding(&found)).collect();
    let thickness = length(report.thickness());
    let height = length(report.height());
    let findings = findings.join(",");
    format!("{{\"file\":{},\"findings\":[{findings}],\"thickness\":{thickness},\"bends\":{},\"height\":{height}}}\n", string(file), report.bends())
}

fn finding(finding: &Finding) -> String {
    let faces: Vec<String> = finding.faces().map(|face| string(&face.to_string())).collect();
    format!(
        "{{\"severity\":{},\"rule\":{},\"count\":{},\"faces\":[{}],\"message\":{}}}",
        string(finding.severity.name()),
        string(finding.rule.name()),
        finding.count,
        faces.join(","),
        string(finding.message)
    )
}

/// A refusal: `file`, and `refusal` with `number`, `condition`, `place` and `advice`.
pub fn refusal(file: &str, told: &Told) -> String {
    let place = told.place.as_deref().map_or("null".to_string(), string);
    format!(
        "{{\"file\":{},\"refusal\":{{\"number\":{},\"condition\":{},\"place\":{place},\"advice\":{}}}}}\n",
        string(file),
        told.refusal.number(),
        string(told.refusal.condition()),
        string(told.advice)
    )
}

/// A file that could not be read: `file` and `error`.
pub fn error(file: &str, why: &str) -> String {
    format!("{{\"file\":{},\"error\":{}}}\n", string(file), string(why))
}

/// A length in mm. JSON has no infinities and no NaN.
fn length(length: Option<f64>) -> String {
    match length {
        Some(x) if x.is_finite() => format!("{x:?}"),
        _ => "null".to_string(),
    }
}

fn string(text: &str) -> String {
    let mut out = String::from("\"");
    for c in text.chars() {
        match c {
            '"' => out.push_str("\\\""),
            '\\' => out.push_str("\\\\"),
            '\n' => out.push_str("\\n"),
            '\r' => out.push_str("\\r"),
            '\t' => out.push_str("\\t"),
            c if c < ' ' || c == '\x7f' => out.push_str(&format!("\\u{:04x}", c as u32)),
            c => out.push(c),
        }
    }
    out.push('"');
    out
}

#[cfg(test)]
mod tests {
    use super::*;

    #[test]
    fn strings_are_escaped() {
        assert_eq!(string("a\"b\\c\nd\u{1}é²"), "\"a\\\"b\\\\c\\nd\\u0001é²\"");
    }

    #[test]
    fn a_report_is_one_line() {
        let text = b"1 3fe0000000000000 2 -\nWarning|Thin wall|1|1:0,1:1|a | \"b\"\n";
        let line = report("p", &Report::parse(text).unwrap());
        assert_eq!(
            line,
            "{\"file\":\"p\",\"findings\":[{\"severity\":\"Warning\",\"rule\":\"Thin wall\",\"count\":1,\"faces\":[\"1:0\",\"1:1\"],\
             \"message\":\"a | \\\"b\\\"\"}],\"thickness\":0.5,\"bends\":2,\"height\":null}\n"
        );
    }
}
