//! Counts what a stream of answers holds: how many files have each finding and each refusal.
//!
//! tally < answers
//!
//! Ends with status 1 if an expected one is in fewer than 1 of 500 files.
use common::generate::findings::{name, of_line, FINDINGS};
use std::collections::BTreeMap;
use std::io::Read;

/// Tallies of the answers as such.
const WHOLE: &[&str] = &["a merged line", "no finding", "two findings and more", "a thickness", "a bend"];

fn main() {
    let mut input = Vec::new();
    std::io::stdin().read_to_end(&mut input).expect("the answers");
    let mut counts = expected();
    let (mut files, mut rest) = (0u64, &input[..]);
    while rest.len() >= 4 {
        let (length, after) = rest.split_at(4);
        let length = u32::from_le_bytes(length.try_into().unwrap()) as usize;
        let (text, after) = after.split_at(length);
        let mut here = names(&String::from_utf8_lossy(text));
        here.sort();
        here.dedup();
        here.into_iter().for_each(|name| *counts.entry(name).or_default() += 1);
        files += 1;
        rest = after;
    }
    std::process::exit(print(&counts, files));
}

/// Everything that is to occur, not yet seen.
fn expected() -> BTreeMap<String, u64> {
    let findings = FINDINGS.iter().map(|f| name(f));
    let refusals = (1..=9).map(|n| format!("refused {n}"));
    findings.chain(refusals).chain(WHOLE.iter().map(|w| w.to_string())).map(|n| (n, 0)).collect()
}

/// What one answer has.
fn names(answer: &str) -> Vec<String> {
    let mut lines = answer.lines();
    let first = lines.next().unwrap_or("");
    if first.starts_with("refused") {
        return vec![first.to_string()];
    }
    let mut out: Vec<String> = lines.flat_map(of_line).collect();
    let head: Vec<&str> = first.split(' ').collect();
    match head.first() {
        Some(&"0") => out.push("no finding".into()),
        Some(&"1") => {}
        _ => out.push("two findings and more".into()),
    }
    if head.get(1).is_some_and(|t| *t != "-") {
        out.push("a thickness".into());
    }
    if head.get(2).is_some_and(|b| *b != "0") {
        out.push("a bend".into());
    }
    out
}

/// The table, commonest first; the status is 1 if an expected one is rare.
fn print(counts: &BTreeMap<String, u64>, files: u64) -> i32 {
    let wanted = expected();
    let mut rows: Vec<(&String, &u64)> = counts.iter().collect();
    rows.sort_by_key(|(name, n)| (u64::MAX - **n, *name));
    let mut status = 0;
    println!("{files} files");
    for (name, n) in rows {
        let rare = wanted.contains_key(name) && n * 500 < files;
        println!("{n:8}  {name}{}", if rare { "  RARE" } else { "" });
        status |= i32::from(rare);
    }
    status
}
