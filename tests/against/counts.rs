//! How often each thing occurred that a comparison is to see, by name.
use common::ids::Id;
use common::mesh::Mesh;
use oracle::check::MOST_FAULTS;
use oracle::faults::Finding;
use oracle::solid::FaceId;
use std::collections::HashSet;

/// Of parts with more polygons only the faults are counted.
pub const SMALL: usize = 300;

/// A limit is met on it, one f64 below it and one above.
const SIDES: [&str; 3] = ["below", "on the limit", "above"];
const LEAST_AT_A_LIMIT: u64 = 100;

/// What occurs by the rules of any process.
const OF_RULES: [(&str, u64); 12] = [
    ("accepted", 150_000),
    ("refused 1 to 7", 300),
    ("refused 8", 300),
    ("refused 9", 20),
    ("no polygons", 300),
    ("no faults", 300),
    ("equal faults", 300),
    ("fewer rows than faults", 1_000),
    ("2047 faults", 2),
    ("2048 faults", 2),
    ("2049 faults", 2),
    ("ids against the order of numbers", 1_000),
];

struct Count {
    what: String,
    count: u64,
    least: u64,
}

pub struct Counts(Vec<Count>);

impl Counts {
    /// What is to occur, and how often at the least; and the limits that are to be met.
    pub fn wanted(things: &[(&str, u64)], limits: &[&str]) -> Counts {
        let things = things.iter().map(|(what, least)| (what.to_string(), *least));
        let limits = limits.iter().flat_map(|what| SIDES.map(|side| (format!("{what}, {side}"), LEAST_AT_A_LIMIT)));
        Counts(things.chain(limits).map(|(what, least)| Count { what, count: 0, least }).collect())
    }

    /// The same beside what occurs by the rules of any process.
    pub fn of_rules(things: &[(&str, u64)], limits: &[&str]) -> Counts {
        Counts::wanted(&[&OF_RULES[..], things].concat(), limits)
    }

    pub fn add(&mut self, what: &str, times: u64) {
        let place = self.0.iter_mut().find(|c| c.what == what);
        place.unwrap_or_else(|| panic!("{what} is not in the list")).count += times;
    }

    pub fn limit(&mut self, what: &str, x: f64, limit: f64) {
        let places = [limit.next_down(), limit, limit.next_up()];
        places.iter().zip(SIDES).filter(|(place, _)| **place == x).for_each(|(_, side)| self.add(&format!("{what}, {side}"), 1));
    }

    /// The oracle's answer to a file, 0 or a refusal.
    pub fn answer(&mut self, answer: u32) {
        let what = ["accepted", "refused 8", "refused 9", "refused 1 to 7"];
        self.add(what[[0, 8, 9].iter().position(|n| *n == answer).unwrap_or(3)], 1);
    }

    /// What is counted of the findings in an accepted file, by whatever rules.
    pub fn findings(&mut self, mesh: &Mesh, faces: &[Id], findings: &[Finding]) {
        let texts: HashSet<_> = findings.iter().map(|f| (f.severity, f.rule, &f.message)).collect();
        self.add("no polygons", u64::from(mesh.polygons.is_empty()));
        self.add("no faults", u64::from(findings.is_empty()));
        self.add("equal faults", u64::from(texts.len() < findings.len()));
        if findings.len().abs_diff(MOST_FAULTS) <= 1 {
            self.add(&format!("{} faults", findings.len()), 1);
        }
        let number = |id: FaceId| faces.iter().position(|f| *f == (id.feature, id.index));
        for f in findings {
            self.add(&format!("{}, {}", f.rule, f.severity.label()), 1);
            if let ([a, b], true) = (&f.faces[..], mesh.polygons.len() <= SMALL) {
                self.add("ids against the order of numbers", u64::from((a < b) != (number(*a) < number(*b))));
            }
        }
    }

    pub fn count(&self, what: &str) -> u64 {
        self.0.iter().filter(|c| c.what == what).map(|c| c.count).sum()
    }

    pub fn and(mut self, other: Counts) -> Counts {
        self.0.iter_mut().zip(other.0).for_each(|(c, d)| c.count += d.count);
        self
    }

    /// How often each occurred.
    pub fn text(&self) -> String {
        self.0.iter().map(|c| format!("{}: {}", c.what, c.count)).collect::<Vec<_>>().join("; ")
    }

    pub fn too_rare(&self) -> Vec<&str> {
        self.0.iter().filter(|c| c.count < c.least).map(|c| c.what.as_str()).collect()
    }
}
