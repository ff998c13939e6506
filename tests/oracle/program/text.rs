//! The report as document 01 prints it.
use crate::dfm::{DfmReport, Finding};

fn length(x: Option<f64>) -> String {
    x.map_or("-".into(), |x| format!("{:016x}", x.to_bits()))
}

fn line(f: &Finding) -> String {
    let faces: Vec<String> = f.faces.iter().map(|id| format!("{}:{}", id.feature, id.index)).collect();
    let faces = if faces.is_empty() { "-".into() } else { faces.join(",") };
    format!("{}|{}|{}|{}|{}\n", f.severity.label(), f.rule, f.count, faces, f.message)
}

pub fn of_report(report: &DfmReport) -> String {
    let mut text = format!("{} {} {} {}\n", report.findings.len(), length(report.thickness), report.bends, length(report.height));
    for f in &report.findings {
        text += &line(f);
    }
    text
}
