//! The findings that answers have, by name.

/// Severity and rule, and words of the text where one rule has several.
pub const FINDINGS: &[(&str, &str, &str)] = &[
    ("Error", "Thin wall", "to machine"),
    ("Warning", "Thin wall", "to machine"),
    ("Warning", "Small hole", "micro drills"),
    ("Warning", "Deep hole", "gun drilling"),
    ("Note", "Deep hole", "standard drills"),
    ("Warning", "Tight inside radius", ""),
    ("Warning", "Deep inside corner", ""),
    ("Warning", "Sharp inside corner", ""),
    ("Note", "No material", ""),
    ("Error", "Material", ""),
    ("Error", "Not one thickness", ""),
    ("Error", "Tight bend", ""),
    ("Warning", "Short flange", ""),
    ("Warning", "Small hole", "punch poorly"),
    ("Warning", "Hole too close", "an edge"),
    ("Warning", "Hole too close", "a bend"),
    ("Error", "Not closed", ""),
    ("Error", "Thinner than a layer", ""),
    ("Warning", "Few layers", ""),
    ("Error", "Thinner than the nozzle", ""),
    ("Error", "Thin wall", "to print"),
    ("Warning", "Thin wall", "to print"),
    ("Warning", "Small hole", "print undersized"),
    ("Warning", "Overhang", ""),
    ("Warning", "Enclosed hollow", "resin"),
    ("Error", "Enclosed hollow", "powder"),
];

pub fn name(finding: &(&str, &str, &str)) -> String {
    let (severity, rule, words) = finding;
    if words.is_empty() { format!("{severity} {rule}") } else { format!("{severity} {rule} ({words})") }
}

/// The finding of a line; one that is not in the list stands by its severity and rule.
pub fn of_line(line: &str) -> Vec<String> {
    let fields: Vec<&str> = line.splitn(5, '|').collect();
    let [severity, rule, count, _, text] = fields[..] else { return vec![format!("odd line: {line}")] };
    let known = FINDINGS.iter().find(|f| f.0 == severity && f.1 == rule && text.contains(f.2));
    let mut out = vec![known.map_or(format!("not expected: {severity} {rule}"), name)];
    // An overhang counts faces; any other count above 1 is of equal faults.
    if count != "1" && rule != "Overhang" {
        out.push("a merged line".into());
        out.push(format!("merged {rule}"));
    }
    out
}
