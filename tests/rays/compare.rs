//! One file: readings and the hits of rays beside the oracle's, and beside the definitions; of large bodies the hits alone beside these.
use crate::aim;
use crate::calls::Calls;
use crate::found::Found;
use crate::tried::Tried;
use against::counts::Counts;
use common::ids;
use common::mesh::Mesh;
use common::tally::Tally;
use common::trees::SCANNED;
use oracle::measures::Measures;

/// Up to so many vertices everything is tried with everything.
const SMALL: usize = 400;

/// Numbers of polygons of accepted files, and how often at the least: up to 16 are scanned, more are walked.
const POLYGONS: [(&str, std::ops::RangeInclusive<usize>, u64); 9] = [
    ("9 to 4,096 polygons", 9..=4096, 500_000),
    ("9 to 14 polygons", 9..=14, 20_000),
    ("15 polygons", 15..=15, 20_000),
    ("16 polygons", 16..=16, 20_000),
    ("17 polygons", 17..=17, 20_000),
    ("18 to 100 polygons", 18..=100, 100_000),
    ("101 to 1,000 polygons", 101..=1000, 5_000),
    ("1,001 to 4,095 polygons", 1001..=4095, 300),
    ("4,096 polygons", 4096..=4096, 300),
];

/// Of each kind of ray.
const OF_A_KIND: u64 = 100_000;

/// What is to occur, and how often at the least.
const WANTED: [(&str, u64); 29] = [
    ("accepted", 500_000),
    ("refused 1 to 7", 500),
    ("refused 8", 500),
    ("refused 9", 500),
    ("readings by the definitions too", 100_000),
    ("readings", 500),
    ("a reading's ray that hits nothing", 500),
    ("a reading's ray that hits what does not face back", 500),
    ("a face of equal areas", 500),
    ("a face with polygons passed over", 500),
    ("no area", 500),
    ("rays", 5_000_000),
    ("hits", 1_000_000),
    ("hits at t of zero", 10_000),
    ("several polygons at the smallest t", 100_000),
    ("several polygons at the smallest t, over 16 in all", 100_000),
    ("several polygons at t of zero", 10_000),
    ("own boxes change the hit", 10_000),
    ("met beside its box", 10_000),
    ("met before its box is entered", 10_000),
    ("met where its box is entered", 10_000),
    ("met past its box", 10_000),
    ("a hit with a NaN axis", 1_000),
    ("a hit past its box", 1_000),
    ("a hit in a flat box", 100_000),
    ("a hit with a zero in the direction", 100_000),
    ("a tree of more than one leaf with a hit", 100_000),
    ("lines that leave the part", 500),
    ("lines that do not", 500),
];

pub struct Compare {
    pub tally: Tally,
    pub counts: Counts,
    calls: Calls,
    lent: Vec<u8>,
}

impl Compare {
    pub fn new(seed: u64) -> Compare {
        let polygons = POLYGONS.iter().map(|(what, _, least)| (*what, *least));
        let wanted: Vec<(&str, u64)> = WANTED.into_iter().chain(polygons).chain(aim::KINDS.map(|what| (what, OF_A_KIND))).collect();
        Compare { tally: Tally::default(), counts: Counts::wanted(&wanted, &[]), calls: Calls::new(seed), lent: Vec::new() }
    }

    /// The oracle's answer.
    pub fn check(&mut self, file: &[u8], what: impl FnOnce() -> String) -> u32 {
        self.lent.clear();
        self.lent.extend_from_slice(file);
        let body = oracle::body(file);
        let answer = body.as_ref().err().copied().unwrap_or(0);
        self.counts.answer(answer);
        let result = match body {
            Err(number) => self.calls.refused(&self.lent, number),
            Ok(solid) => self.accepted(file, &Measures::of(&solid)),
        };
        let result = if self.lent == file { result } else { Err("the file is changed".into()) };
        self.tally.check(result.is_ok(), || format!("{} ({} bytes): {}", what(), file.len(), result.unwrap_err()));
        answer
    }

    fn accepted(&mut self, file: &[u8], measures: &Measures) -> Result<(), String> {
        let mesh = Mesh::read(file);
        // fewer for large bodies; none now and then
        let most = if mesh.polygons.len() > 1000 { 8 } else { 24 };
        let count = self.calls.random.below(most + 1) as usize;
        let (rays, kinds) = aim::rays(&mut self.calls.random, &mesh, count);
        let mut found = self.calls.found(&self.lent, &rays)?;
        found.compare(&Found::theirs(measures, &ids::of_faces(&mesh), &rays)).map_err(|place| format!("the Rust's: {place} of {rays:?}"))?;
        self.count(&mesh, &found, &kinds);
        let small = mesh.vertices() <= SMALL;
        if !small {
            found.samples.clear();
        }
        self.counts.add("readings by the definitions too", u64::from(small));
        found.compare(&Tried::found(&mesh, &rays, small, &mut self.counts)).map_err(|place| format!("by definition: {place} of {rays:?}"))?;
        self.calls.too_short(&self.lent, &rays)
    }

    fn count(&mut self, mesh: &Mesh, found: &Found, kinds: &[usize]) {
        let polygons = mesh.polygons.len();
        POLYGONS.iter().filter(|(_, range, _)| range.contains(&polygons)).for_each(|(what, ..)| self.counts.add(what, 1));
        kinds.iter().for_each(|k| self.counts.add(aim::KINDS[*k], 1));
        let mut add = |what: &str, count: usize| self.counts.add(what, count as u64);
        let open = found.open.iter().filter(|open| **open).count();
        add("readings", found.samples.len());
        add("rays", found.hits.len());
        add("hits", found.hits.iter().flatten().count());
        add("a tree of more than one leaf with a hit", usize::from(polygons > SCANNED && found.hits.iter().any(|hit| hit.is_some())));
        add("hits at t of zero", found.hits.iter().flatten().filter(|(_, t)| f64::from_bits(*t) == 0.0).count());
        add("lines that leave the part", open);
        add("lines that do not", found.open.len() - open);
    }
}
