//! The check through the package: reports, refusals, and what is left in lent buffers.
mod common;

use common::{cuboid, hollows, largest, part, plate, plate_report, CNC, FDM, SLS};
use gablemadder::{check, check_with, Checker, Face, FaultRow, Finding, Refusal, Rule, Scratch, Severity, MOST_REPORT, MOST_ROWS};

/// A check's buffers, full of junk.
struct Lent {
    words: Vec<u32>,
    reals: Vec<f64>,
    rows: Vec<FaultRow>,
    report: Vec<u8>,
}

const JUNK: FaultRow = FaultRow { kind: 1, severity: 2, count: 3, a: 4, b: 5, waived: 6, x: 7.0, y: 8.0, z: 9.0 };

impl Lent {
    fn new(scratch: Scratch, rows: usize, report: usize) -> Lent {
        Lent { words: vec![7; scratch.words], reals: vec![7.5; scratch.reals], rows: vec![JUNK; rows], report: vec![b'#'; report] }
    }

    fn check(&mut self, file: &[u8]) -> Result<usize, Refusal> {
        check_with(file, &mut self.words, &mut self.reals, &mut self.rows, &mut self.report)
    }

    fn is_cleared(&self) -> bool {
        let rows = self.rows.iter().all(|row| *row == FaultRow::default());
        rows && self.words.iter().all(|word| *word == 0) && self.reals.iter().all(|real| real.to_bits() == 0)
    }

    fn is_untouched(&self) -> bool {
        self.rows.iter().all(|row| *row == JUNK) && self.words.iter().all(|word| *word == 7) && self.reals.iter().all(|real| *real == 7.5)
    }

    fn has_no_report(&self) -> bool {
        self.report.iter().all(|byte| *byte == b'#')
    }
}

#[test]
fn the_plate_has_a_thin_wall() {
    let report = check(&plate()).unwrap();
    assert_eq!(report.text(), plate_report());
    assert_eq!((report.thickness(), report.bends(), report.height()), (None, 0, None));
    let findings: Vec<_> = report.findings().collect();
    assert_eq!(findings.len(), 1);
    let finding = findings[0];
    assert_eq!((finding.severity, finding.rule, finding.count), (Severity::Warning, Rule::ThinWall, 1));
    assert!(finding.faces().eq([Face { feature: 1, index: 0 }, Face { feature: 1, index: 1 }]));
    assert_eq!(part(CNC, &cuboid(1, [20.0, 20.0, 0.5])), plate());
}

#[test]
fn a_print_has_a_height() {
    let report = check(&part(FDM, &cuboid(1, [20.0, 5.0, 20.0]))).unwrap();
    assert_eq!(report.height(), Some(5.0));
}

#[test]
fn a_part_without_polygons_has_no_findings() {
    assert_eq!(check(&part(CNC, &[])).unwrap().text(), "0 - 0 -\n");
}

#[test]
fn each_refusal_of_a_file() {
    let refused = |file: &[u8]| check(file).unwrap_err();
    let empty = part(CNC, &[]);
    let end = |file: &[u8], before: usize, value: u32| {
        let (mut file, at) = (file.to_vec(), file.len() - before);
        file[at..at + 4].copy_from_slice(&value.to_le_bytes());
        file
    };
    assert_eq!(refused(&[]), Refusal::TooShort);
    assert_eq!(refused(&empty[1..]), Refusal::TooShort);
    assert_eq!(refused(&end(&empty, 16, 2)), Refusal::WrongEdition);
    assert_eq!(refused(&end(&empty, 12, 16_385)), Refusal::TooLarge);
    assert_eq!(refused(&end(&empty, 8, u32::MAX)), Refusal::TooLarge);
    assert_eq!(refused(&[&[0], &empty[..]].concat()), Refusal::WrongLength);
    assert_eq!(refused(&end(&empty, 4, 145)), Refusal::WrongLength);
    assert_eq!(refused(&part(5, &[])), Refusal::BadJob);
    let triangle = |a: f64| vec![(1, 0, vec![[a, 0.0, 0.0], [0.0, 1.0, 0.0], [0.0, 0.0, 0.0]])];
    assert_eq!(refused(&part(CNC, &triangle(f64::INFINITY))), Refusal::BadVertex);
    assert_eq!(refused(&part(CNC, &[(1, 0, vec![[0.0; 3], [1.0, 0.0, 0.0]])])), Refusal::BadPolygon);
    assert_eq!(refused(&part(CNC, &triangle(0.0))), Refusal::FlatPolygon);
    let faces: Vec<_> = (0..1025).map(|k| (1, k, triangle(1.0)[0].2.clone())).collect();
    assert_eq!(refused(&part(CNC, &faces)), Refusal::TooManyFaces);
    assert_eq!(refused(&hollows(MOST_ROWS)), Refusal::TooManyFaults);
}

#[test]
fn lent_buffers_after_a_report() {
    let (file, text) = (plate(), plate_report());
    let mut lent = Lent::new(Scratch::of(&file), 1, text.len() + 9);
    assert_eq!(lent.check(&file), Ok(text.len()));
    assert_eq!(&lent.report[..text.len()], text.as_bytes());
    assert_eq!(&lent.report[text.len()..], b"#########");
    assert!(lent.is_cleared());
}

#[test]
fn lent_buffers_after_refusals() {
    let (file, text) = (plate(), plate_report());
    let enough = Scratch::of(&file);
    let mut lent = Lent::new(enough, 0, text.len());
    assert_eq!(lent.check(&file), Err(Refusal::TooManyFaults));
    assert!(lent.is_cleared() && lent.has_no_report());
    let mut lent = Lent::new(enough, 5, text.len() - 1);
    assert_eq!(lent.check(&file), Err(Refusal::ReportTooLong));
    assert!(lent.is_cleared() && lent.has_no_report());
    for scratch in [Scratch { words: enough.words - 1, ..enough }, Scratch { reals: enough.reals - 1, ..enough }, Scratch::default()] {
        let mut lent = Lent::new(scratch, 5, text.len());
        assert_eq!(lent.check(&file), Err(Refusal::TooLittleScratch));
        assert!(lent.is_untouched() && lent.has_no_report());
    }
    let mut lent = Lent::new(enough, 5, text.len());
    assert_eq!(lent.check(&file[1..]), Err(Refusal::WrongLength));
    assert!(lent.is_untouched() && lent.has_no_report());
}

#[test]
fn a_long_report_comes_whole() {
    // one fault more says that the body is not closed
    let file = hollows(MOST_ROWS - 1);
    let report = check(&file).unwrap();
    assert!(report.text().len() > 65_536 && report.text().len() <= MOST_REPORT);
    assert_eq!(report.findings().count(), MOST_ROWS);
    let hollow = |f: &Finding| f.severity == Severity::Error && f.rule == Rule::EnclosedHollow && f.faces().count() == 1;
    assert_eq!(report.findings().filter(hollow).count(), MOST_ROWS - 1);
    assert!(report.findings().last().is_some_and(|f| f.rule == Rule::NotClosed && f.faces().count() == 0));
    let mut lent = Lent::new(Scratch::of(&file), MOST_ROWS, MOST_REPORT);
    let length = lent.check(&file).unwrap();
    assert_eq!(&lent.report[..length], report.text().as_bytes());
}

#[test]
fn a_small_part_may_have_more_faults_than_rows_lent_first() {
    // one fault more says that the body is not closed
    for count in [62, 63, 64] {
        let report = check(&hollows(count)).unwrap();
        assert_eq!(report.findings().count(), count + 1);
    }
}

#[test]
fn a_checker_answers_as_check_does() {
    let mut checker = Checker::new();
    let files = [
        plate(),
        hollows(MOST_ROWS - 1),
        part(CNC, &[]),
        vec![0; 9],
        hollows(MOST_ROWS),
        hollows(64),
        largest(SLS),
        part(FDM, &cuboid(4, [9.0, 8.0, 0.3])),
        hollows(63),
        plate(),
    ];
    for file in &files {
        assert_eq!(checker.check(file), check(file));
    }
}
