//! `gablemadder check`: the reports of part files.
use crate::part::MOST_BYTES;
use crate::place::{self, Told};
use crate::progress::Progress;
use crate::{complain, input, json, output, Status};
use gablemadder::{Checker, Report, Severity};
use std::ffi::OsString;

/// Checks each file in turn and prints its report. The status is the worst of theirs.
pub fn run(files: &[OsString], as_json: bool) -> Result<Status, String> {
    let mut checker = Checker::new();
    let mut progress = Progress::new(files.len());
    let mut file = Vec::new();
    let mut worst = Status::Good;
    for (number, path) in files.iter().enumerate() {
        let name = input::name(path);
        progress.at(number, &name);
        let answer = match input::read(path, MOST_BYTES, &mut file) {
            Err(why) => Answer::Unread(why),
            Ok(()) => Answer::of(&mut checker, &file),
        };
        worst = worst.max(answer.status());
        if let Some(why) = answer.complaint() {
            progress.clear();
            complain(&format!("{name}: {why}"));
        }
        let printed = if as_json { answer.json(&path.to_string_lossy()) } else { answer.text(&name, files.len() > 1) };
        progress.clear_for_report();
        output::put(printed.as_bytes())?;
    }
    Ok(worst)
}

/// What there is to say of a file.
pub enum Answer<'a> {
    Report(Report<'a>),
    Refused(Told),
    Unread(String),
}

impl<'a> Answer<'a> {
    /// The check of a part file.
    pub fn of(checker: &'a mut Checker, file: &[u8]) -> Answer<'a> {
        match checker.check(file) {
            Ok(report) => Answer::Report(report),
            Err(refusal) => Answer::Refused(place::tell(file, refusal)),
        }
    }

    pub fn status(&self) -> Status {
        match self {
            Answer::Report(report) if report.findings().all(|found| found.severity != Severity::Error) => Status::Good,
            Answer::Report(_) => Status::HasErrors,
            Answer::Refused(_) | Answer::Unread(_) => Status::Refused,
        }
    }

    /// Why there is no report.
    pub fn complaint(&self) -> Option<String> {
        match self {
            Answer::Report(_) => None,
            Answer::Refused(told) => Some(told.to_string()),
            Answer::Unread(why) => Some(why.clone()),
        }
    }

    /// The report, after the file's name where there are several files.
    pub fn text(&self, name: &str, is_named: bool) -> String {
        match self {
            Answer::Report(report) if is_named => format!("== {name}\n{report}"),
            Answer::Report(report) => report.to_string(),
            Answer::Refused(_) | Answer::Unread(_) => String::new(),
        }
    }

    pub fn json(&self, name: &str) -> String {
        match self {
            Answer::Report(report) => json::report(name, report),
            Answer::Refused(told) => json::refusal(name, told),
            Answer::Unread(why) => json::error(name, why),
        }
    }
}
