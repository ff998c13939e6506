//! What the comparison is to see, and how often each of it occurs in a part.
use crate::closed;
use crate::steps::Steps;
use against::counts::{Counts, SMALL};
use against::frame::Rules;
use against::printing::jobs::{self, Print};
use against::printing::ups;
use common::field::word;
use common::ids::Id;
use common::mesh::Mesh;
use oracle::faults::{DfmReport, Part};

/// What is to occur beside what every process has, and how often at the least.
const WANTED: [(&str, u64); 91] = [
    ("FDM", 50_000),
    ("SLA", 50_000),
    ("SLS", 50_000),
    ("Not closed, Error", 10_000),
    ("a body as it is", 50_000),
    ("a polygon missing", 50_000),
    ("a polygon too many", 50_000),
    ("a polygon flipped", 50_000),
    ("bodies glued along an edge", 50_000),
    ("a side about as short as a key", 50_000),
    ("a corner moved by about a key", 50_000),
    ("no open key", 50_000),
    ("one open key to three", 10_000),
    ("more than 9 open keys", 10_000),
    ("a key of three sides", 10_000),
    ("a key of four sides", 10_000),
    ("two sides of a key run the same way", 10_000),
    ("sides of no key", 10_000),
    ("another number with keys of 1e5", 10_000),
    ("no open key, but the published Rust counts some", 10_000),
    ("open keys, but the published Rust counts none", 300),
    ("as many open keys as findings", 1_000),
    ("Thinner than a layer, Error", 1_000),
    ("Few layers, Warning", 1_000),
    ("Thinner than the nozzle, Error", 1_000),
    ("Thin wall, Error", 1_000),
    ("Thin wall, Warning", 1_000),
    ("Small hole, Warning", 1_000),
    ("Overhang, Warning", 1_000),
    ("Enclosed hollow, Warning", 1_000),
    ("Enclosed hollow, Error", 1_000),
    ("a material", 1_000),
    ("no nozzle", 1_000),
    ("a nozzle of 0", 1_000),
    ("no limit of overhangs", 1_000),
    ("a limit of 0", 300),
    ("a limit of 90 degrees", 300),
    ("a limit whose text is rounded from a half", 300),
    ("up along an axis", 1_000),
    ("up against an axis", 1_000),
    ("up along no axis", 1_000),
    ("up shorter than 1", 1_000),
    ("up longer than 1", 1_000),
    ("up of length 1", 1_000),
    ("an overhang of several faces, their ids against the order of numbers", 1_000),
    ("a floor to some readings, a side to others", 1_000),
    ("the last of the thinnest is of the other sense", 300),
    ("the first reading is of the other sense", 300),
    ("the slack taken from the limit of a wall would decide otherwise", 100),
    ("the slack taken from the least hole would decide otherwise", 10),
    ("a thickness whose text is rounded from about a half", 300),
    ("layers whose text is rounded from about a half", 300),
    ("the inverse of the layer would say other layers", 10),
    ("a diameter whose text is rounded from about a half", 300),
    ("only the slack is as wide as the nozzle", 300),
    ("under the nozzle, but as thick as the least wall", 300),
    ("only the slack is as thick as the least wall", 300),
    ("with a nozzle less than half a wall", 300),
    ("only the slack is half a wall", 300),
    ("only the slack is as thick as a layer", 300),
    ("only the slack is as thick as two layers", 300),
    ("a floor as thin as a side may not be", 300),
    ("only the slack is as wide as the least hole", 300),
    ("a height of 0", 300),
    ("zeros of both signs for the lowest and the highest", 300),
    ("a height below 1", 1_000),
    ("a face of which some polygons hang over", 1_000),
    ("only the slack keeps it from leaning too far", 1_000),
    ("an underside on the plate", 1_000),
    ("an underside of which some corners are on the plate", 1_000),
    ("a bore that is no hole", 300),
    ("a level hole too wide to bridge", 300),
    ("a hole too steep to bridge", 300),
    ("a hole that bridges", 1_000),
    ("a flat underside of a face that bridges", 300),
    ("a face of several polygons about as large as counts", 300),
    ("some faces too small to count beside others", 300),
    ("the area is another by the order of numbers", 300),
    ("the area is another by the order of polygons", 300),
    ("several bodies", 1_000),
    ("a hollow that traps nothing", 1_000),
    ("several hollows", 1_000),
    ("a hollow in a hollow", 1_000),
    ("a face of two hollows", 1_000),
    ("a face of a hollow and of another body", 1_000),
    ("a face of several polygons of a hollow", 1_000),
    ("ids of a hollow against the order of its polygons", 1_000),
    ("bodies that keys of 1e4 would join", 300),
    ("bodies that finer keys would part", 300),
    ("the volume is another in the other order", 300),
    (TENTHS, 1_780),
];

/// Of 901 limits each with the slack and without.
pub const TENTHS: &str = "limits with a face that leans by just their sine, or that and the slack";

/// Each occurs on the limit, one f64 below it and one above.
const LIMITS: [&str; 14] = [
    "layer",
    "two layers",
    "nozzle",
    "least wall",
    "half a wall",
    "floor that leans",
    "least hole",
    "lean of the sine",
    "lean of the sine and the slack",
    "plate",
    "hole that bridges",
    "axis that leans",
    "area",
    "hollow",
];

/// Of what changes between two parts that one f64 tells apart.
const CHANGES: [(&str, u64); 8] = [
    ("change of Overhang", 300),
    ("change of Enclosed hollow", 100),
    ("change of Small hole", 100),
    ("change of Thinner than a layer", 100),
    ("change of Few layers", 100),
    ("change of Thinner than the nozzle", 100),
    ("change of Thin wall", 100),
    // seldom: a part is as open when it is turned as before, and scaling changes it only near the size of a key
    ("change of Not closed", 1),
];

pub struct Printing;

impl Rules for Printing {
    const PROCESSES: &'static [u32] = &jobs::PROCESSES;

    fn wanted() -> Counts {
        Counts::of_rules(&[&WANTED[..], &CHANGES[..]].concat(), &LIMITS)
    }

    fn note(counts: &mut Counts, mesh: &Mesh, faces: &[Id], part: &Part, report: &DfmReport) {
        counts.findings(mesh, faces, &report.findings);
        counts.add(jobs::process(&mesh.job).short_label(), 1);
        closed::note(counts, mesh, report);
        let print = Print::of(&mesh.job);
        counts.add("a material", u64::from(word(&mesh.job, 4) & 1));
        note_print(counts, &print);
        if (1..=SMALL).contains(&mesh.polygons.len()) {
            let over = report.findings.iter().find(|f| f.rule == "Overhang");
            let number = |id| faces.iter().position(|f| *f == id);
            let against = over.is_some_and(|f| !f.faces.is_sorted_by_key(|id| number((id.feature, id.index))));
            counts.add("an overhang of several faces, their ids against the order of numbers", u64::from(against));
            Steps::new(part, print, counts).all(report);
        }
    }
}

fn note_print(counts: &mut Counts, print: &Print) {
    let mut add = |what: &str, is: bool| counts.add(what, u64::from(is));
    add("no nozzle", print.nozzle.is_none());
    add("a nozzle of 0", print.nozzle == Some(0.0));
    add("no limit of overhangs", print.overhang.is_none());
    add("a limit of 0", print.overhang == Some(0));
    add("a limit of 90 degrees", print.overhang == Some(900));
    add("a limit whose text is rounded from a half", print.overhang.is_some_and(|tenths| tenths % 10 == 5));
    let axes = print.up.iter().filter(|c| **c != 0.0).count();
    add("up along an axis", axes == 1 && print.up.iter().any(|c| *c > 0.0));
    add("up against an axis", axes == 1 && print.up.iter().any(|c| *c < 0.0));
    add("up along no axis", axes > 1);
    let length = ups::vector(print.up).length();
    add("up shorter than 1", length < 0.99);
    add("up longer than 1", length > 1.01);
    add("up of length 1", length == 1.0);
}
