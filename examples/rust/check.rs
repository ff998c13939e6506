//! Checks a part file: `cargo run --example check -- PART`. Prints a line for each finding, and ends with 1 where one is an error.
use gablemadder::Severity;
use std::process::ExitCode;

fn main() -> ExitCode {
    let Some(path) = std::env::args().nth(1) else {
        eprintln!("usage: check PART");
        return ExitCode::from(2);
    };
    let file = match std::fs::read(&path) {
        Ok(file) => file,
        Err(error) => {
            eprintln!("{path}: {error}");
            return ExitCode::from(2);
        }
    };
    match gablemadder::check(&file) {
        Ok(report) => {
            show(&report);
            let failed = report.findings().any(|finding| finding.severity == Severity::Error);
            ExitCode::from(failed as u8)
        }
        Err(refusal) => {
            println!("{refusal}");
            println!("{}", refusal.advice());
            ExitCode::from(2)
        }
    }
}

fn show(report: &gablemadder::Report) {
    if let Some(thickness) = report.thickness() {
        println!("sheet of {thickness:.2} mm, bends: {}", report.bends());
    }
    if let Some(height) = report.height() {
        println!("print {height:.2} mm high");
    }
    println!("findings: {}", report.findings().count());
    for finding in report.findings() {
        let faces: Vec<String> = finding.faces().map(|face| face.to_string()).collect();
        println!("{:<8}{} x {} [{}]", finding.severity, finding.count, finding.rule, faces.join(" "));
        println!("        {}", finding.message);
    }
}
