//! The Rust package beside the patched Rust, on generated part files from standard input: the report's bytes or the refusal's number, by a checker that
//! is kept and by itself; and what is read of a report, written again, is the report.
use common::stream;
use gablemadder::{Checker, Finding, Report, MOST_ROWS};
use oracle::check::{Checked, Lent};

/// With enough of everything.
fn wanted(file: &[u8]) -> Result<String, u32> {
    let checked = Checked::of(file)?;
    let lent = Lent { reals: checked.reals, words: checked.words, rows: MOST_ROWS, report: usize::MAX };
    checked.answer(&lent).map(str::to_string)
}

fn length(x: Option<f64>) -> String {
    x.map_or("-".to_string(), |x| format!("{:016x}", x.to_bits()))
}

fn line(finding: Finding) -> String {
    let faces: Vec<String> = finding.faces().map(|face| face.to_string()).collect();
    let faces = if faces.is_empty() { "-".to_string() } else { faces.join(",") };
    format!("{}|{}|{}|{faces}|{}\n", finding.severity, finding.rule, finding.count, finding.message)
}

fn rewritten(report: &Report) -> String {
    let lines: String = report.findings().map(line).collect();
    let (thickness, height) = (length(report.thickness()), length(report.height()));
    format!("{} {thickness} {} {height}\n{lines}", report.findings().count(), report.bends())
}

fn main() {
    let mut checker = Checker::new();
    let (mut files, mut reports, mut findings, mut different) = (0u64, 0u64, 0usize, 0u64);
    let each = stream::each(|number, file| {
        let wanted = wanted(file);
        let kept = checker.check(file).map(Report::into_owned);
        let read = kept.as_ref().map_or(0, |report| report.findings().count());
        let again = kept.as_ref().map(rewritten).map_err(|refusal| refusal.number());
        let text = kept.as_ref().map(|report| report.text().to_string()).map_err(|refusal| refusal.number());
        files += 1;
        reports += kept.is_ok() as u64;
        findings += read;
        if text != wanted || again != wanted || gablemadder::check(file) != kept {
            different += 1;
            println!("file {number}: {text:?}, not {wanted:?}");
        }
    });
    each.expect("the generated files");
    println!("bindings: {files} files, {reports} reports with {findings} findings, {different} differences");
    std::process::exit((different != 0 || reports == 0) as i32);
}
