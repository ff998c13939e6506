//! What the comparison is to see, and how often each of it occurs in a part.
use crate::steps::Steps;
use against::counts::{Counts, SMALL};
use against::frame::Rules;
use against::sheet::jobs;
use common::field::word;
use common::ids::Id;
use common::mesh::Mesh;
use oracle::faults::{DfmReport, Finding, Part};
use oracle::measures::Measures;
use std::collections::HashSet;

/// What is to occur beside what every process has, and how often at the least.
const WANTED: [(&str, u64); 65] = [
    ("No material, Note", 1_000),
    ("Material, Error", 1_000),
    ("Not one thickness, Error", 1_000),
    ("Tight bend, Error", 1_000),
    ("Short flange, Warning", 1_000),
    ("Small hole, Warning", 1_000),
    ("Hole too close, Warning", 1_000),
    ("a hole too close to a bend", 1_000),
    ("a thickness", 1_000),
    ("no bend", 1_000),
    ("1 bend", 1_000),
    ("2 bends", 1_000),
    ("3 bends", 1_000),
    ("4 bends", 300),
    ("5 bends", 300),
    ("6 bends", 300),
    ("a plastic with a ratio", 300),
    ("a metal without a ratio", 300),
    ("ratio 0", 300),
    ("ratio 100", 300),
    ("a name of 40 bytes with one of the words", 300),
    ("a text with a name of 40 bytes", 300),
    ("a tight bend of no material", 300),
    ("a tight bend with a ratio of three decimals", 300),
    ("a face of several kinds", 300),
    ("no reading", 300),
    ("a reading of a face that no other is next to", 300),
    ("every reading dropped", 300),
    ("some readings dropped", 1_000),
    ("the median of the kept ones is another", 300),
    ("half of the weight is met exactly", 100),
    ("faces that are not one thickness, of which one has no kept reading", 300),
    ("off, but not enough of it", 300),
    ("reading just off", 100),
    ("reading just not off", 100),
    ("reading at the limit of what is off", 100),
    ("outside radius just close", 100),
    ("outside radius just not close", 100),
    ("outside radius at the limit of what is close", 100),
    ("the outside's axis would decide otherwise", 100),
    ("two outsides fit", 300),
    ("axes of a bend that point against each other", 300),
    ("an outside of two bends", 300),
    ("an inside without an outside", 300),
    ("a flange seen already", 1_000),
    ("another polygon's normal would decide otherwise", 300),
    ("another segment would decide otherwise", 300),
    ("the inside's axis would say another length of a flange", 100),
    ("a name decides about a hole", 300),
    ("a word at the end of 40 bytes decides about a hole", 100),
    ("a hole without plates", 300),
    ("a hole next to one plate", 300),
    ("several faces at the nearest gap", 300),
    ("the last of equal gaps is another face", 300),
    ("a bend and an edge at the nearest gap", 100),
    ("the nearest gap is below 0", 300),
    ("the nearest gap is 0", 100),
    ("the nearest is a hole", 300),
    ("the nearest is the inside of a bend", 300),
    ("the nearest is the outside of a bend", 300),
    ("a diameter whose text is rounded from a half", 100),
    ("the largest bend radius is not the nearest bend's", 300),
    ("another first plate would name another face", 300),
    ("between bends only the largest radius makes it too close", 100),
    ("a face next to both plates", 1_000),
];

/// Each occurs on the limit, one f64 below it and one above.
const LIMITS: [&str; 12] = [
    "reading from an edge",
    "area that is off",
    "axes that lean",
    "axes that are off",
    "inside radius",
    "flange that leans",
    "parallel flanges",
    "flange",
    "hole of t",
    "hole of 1.2 t",
    "hole from an edge",
    "hole from a bend",
];

/// Of what changes between two parts that one f64 tells apart.
pub const CHANGES: [(&str, u64); 8] = [
    ("change of Not one thickness", 300),
    ("change of any reading kept", 100),
    ("change of bends", 300),
    ("change of Tight bend", 300),
    ("change of Short flange", 300),
    ("change of Small hole", 100),
    ("change of Hole too close", 300),
    ("change of faces", 100),
];

pub struct Sheet;

impl Rules for Sheet {
    const PROCESSES: &'static [u32] = &[1];

    fn wanted() -> Counts {
        Counts::of_rules(&[&WANTED[..], &CHANGES[..]].concat(), &LIMITS)
    }

    fn note(counts: &mut Counts, mesh: &Mesh, faces: &[Id], part: &Part, report: &DfmReport) {
        counts.findings(mesh, faces, &report.findings);
        let near_a_bend = report.findings.iter().filter(|f| f.message.contains(" from a bend;")).count();
        counts.add("a hole too close to a bend", near_a_bend as u64);
        counts.add("a thickness", u64::from(report.thickness.is_some()));
        if report.thickness.is_some() && report.bends <= 6 {
            counts.add(["no bend", "1 bend", "2 bends", "3 bends", "4 bends", "5 bends", "6 bends"][report.bends], 1);
        }
        let kinds = |id: &Id| mesh.polygons.iter().filter(|p| p.face() == *id).map(|p| word(&p.entry, 16)).collect::<HashSet<_>>().len();
        counts.add("a face of several kinds", u64::from(mesh.polygons.len() <= SMALL && faces.iter().any(|id| kinds(id) > 1)));
        let stock = Stock::of(mesh);
        stock.note(counts, &report.findings);
        if (1..=SMALL).contains(&mesh.polygons.len()) && report.findings.iter().all(|f| f.rule != "Material") {
            let steps = Steps { measures: Measures::of(part.body()), stock, counts };
            steps.all(report);
        }
    }
}

/// What the sheet is made of.
pub struct Stock {
    flags: u32,
    class: u32,
    ratio: u32,
    name: String,
}

impl Stock {
    fn of(mesh: &Mesh) -> Stock {
        let job = &mesh.job;
        let name = String::from_utf8_lossy(&job[88..88 + word(job, 76) as usize]).into();
        Stock { flags: word(job, 4), class: word(job, 68), ratio: word(job, 72), name }
    }

    fn note(&self, counts: &mut Counts, findings: &[Finding]) {
        let (material, with_ratio) = (self.flags & 1 != 0, self.flags & 8 != 0);
        counts.add("a plastic with a ratio", u64::from(with_ratio && self.class == 1));
        counts.add("a metal without a ratio", u64::from(material && !with_ratio && self.class == 0));
        counts.add("ratio 0", u64::from(with_ratio && self.ratio == 0));
        counts.add("ratio 100", u64::from(with_ratio && self.ratio == 100_000));
        let long = self.name.len() == 40;
        counts.add("a name of 40 bytes with one of the words", u64::from(long && self.has_a_word()));
        counts.add("a text with a name of 40 bytes", u64::from(long && findings.iter().any(|f| f.message.contains(&self.name))));
        let tight = findings.iter().any(|f| f.rule == "Tight bend");
        counts.add("a tight bend of no material", u64::from(tight && !material));
        counts.add("a tight bend with a ratio of three decimals", u64::from(tight && self.ratio % 10 != 0));
    }

    pub fn ratio(&self) -> f64 {
        if self.flags & 1 == 0 {
            return 1.0;
        }
        f64::from(self.ratio) / 1000.0
    }

    /// Of 40 bytes, and without the last it has none.
    pub fn ends_in_a_word(&self) -> bool {
        self.name.len() == 40 && !jobs::WORDS.iter().any(|word| self.name[..39].contains(word))
    }

    pub fn has_a_word(&self) -> bool {
        jobs::WORDS.iter().any(|word| self.name.contains(word))
    }
}
