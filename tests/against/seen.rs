//! What the comparison is to see, and how often it did: answers, processes, findings, sizes and lent lengths.
use crate::sizes::SLICES;
use common::field::{word, Blocks};
use common::generate::findings::{self, FINDINGS};
use common::generate::job::PROCESSES;
use oracle::check::{Checked, MOST_FAULTS};
use std::collections::{BTreeMap, HashSet};

/// How often each has to occur.
const RAREST: u64 = 100;
/// But for these, the first of which are what rays by a tree are tried on, and each of the others costs much or has few forms.
const LEAST: [(&str, u64); 13] = [
    ("9 to 4,096 polygons", 500_000),
    ("15 polygons", 5_000),
    ("16 polygons", 5_000),
    ("17 polygons", 5_000),
    ("18 polygons", 5_000),
    ("2047 faults", 3),
    ("2048 faults", 3),
    ("2049 faults", 3),
    ("4,096 polygons", 20),
    ("16,384 vertices", 20),
    ("1,024 faces", 20),
    ("a report of more than 100,000 bytes", 3),
    ("a line of more than 1,000 faces", 3),
];

/// Parts of up to 16 polygons are scanned by their rays, others walked.
const POLYGONS: [(&str, std::ops::RangeInclusive<usize>); 11] = [
    ("no polygons", 0..=0),
    ("up to 10 polygons", 1..=10),
    ("up to 100 polygons", 11..=100),
    ("up to 1,000 polygons", 101..=1000),
    ("up to 4,095 polygons", 1001..=4095),
    ("4,096 polygons", 4096..=4096),
    ("9 to 4,096 polygons", 9..=4096),
    ("15 polygons", 15..=15),
    ("16 polygons", 16..=16),
    ("17 polygons", 17..=17),
    ("18 polygons", 18..=18),
];

const OF_A_REPORT: [&str; 9] = [
    "no finding",
    "a thickness",
    "a bend",
    "a height",
    "a merged line",
    "a line of one fault with a face twice",
    "a line of one fault with faces that are not sorted",
    "lines of three severities",
    "a bar in a name",
];

/// Rules whose faults are never equal: there is one at the most, or it counts faces.
const NEVER_MERGED: [&str; 5] = ["Material", "No material", "Not closed", "Not one thickness", "Overhang"];

const SIDES: [&str; 3] = ["one too few", "just enough", "more"];

pub struct Seen(BTreeMap<String, u64>);

impl Seen {
    /// Everything that is to occur, not yet seen.
    pub fn wanted() -> Seen {
        let mut names: Vec<String> = (0..=12).map(answer).collect();
        names.extend(FINDINGS.iter().map(findings::name));
        names.extend(FINDINGS.iter().filter(|f| !NEVER_MERGED.contains(&f.1)).map(|f| format!("merged {}", f.1)));
        names.extend(PROCESSES.map(|p| format!("accepted, {p}")));
        names.extend(OF_A_REPORT.iter().chain(&["1,000 runs of `corner`"]).map(|what| what.to_string()));
        names.extend(POLYGONS.iter().map(|p| p.0).chain(LEAST.map(|f| f.0)).map(String::from));
        names.extend(SLICES.iter().flat_map(|slice| SIDES.map(|side| format!("{slice}: {side}"))));
        Seen(names.into_iter().map(|name| (name, 0)).collect())
    }

    pub fn add(&mut self, what: &str) {
        match self.0.get_mut(what) {
            Some(count) => *count += 1,
            None => drop(self.0.insert(what.into(), 1)),
        }
    }

    /// 0 or the refusal that a call was to give.
    pub fn answer(&mut self, number: u32) {
        self.add(&answer(number));
    }

    /// A slice of so many cells where so many are needed.
    pub fn length(&mut self, slice: usize, lent: usize, needed: usize) {
        let side = match lent {
            _ if lent + 1 == needed => SIDES[0],
            _ if lent == needed => SIDES[1],
            _ if lent > needed => SIDES[2],
            _ => return,
        };
        self.add(&format!("{}: {side}", SLICES[slice]));
    }

    /// A part that refusals 1 to 9 do not turn back.
    pub fn part(&mut self, file: &[u8], checked: &Checked) {
        let blocks = Blocks::of(file).expect("a file that can be read");
        self.add(&format!("accepted, {}", PROCESSES[word(file, blocks.job()) as usize]));
        POLYGONS.iter().filter(|p| p.1.contains(&blocks.polygons)).for_each(|p| self.add(p.0));
        self.where_true("16,384 vertices", blocks.vertices == 16_384);
        let face = |i: usize| (word(file, blocks.entry(i)), word(file, blocks.entry(i) + 4));
        let faces: HashSet<(u32, u32)> = (0..blocks.polygons).map(face).collect();
        self.where_true("1,024 faces", faces.len() == 1024);
        if checked.faults.abs_diff(MOST_FAULTS) <= 1 {
            self.add(&format!("{} faults", checked.faults));
        }
        let name = &file[blocks.job() + 88..blocks.job() + 128];
        self.where_true("a bar in a name", name.contains(&b'|') && checked.faults > 0);
        self.report(&checked.text);
    }

    fn where_true(&mut self, what: &str, is: bool) {
        if is {
            self.add(what);
        }
    }

    fn report(&mut self, text: &str) {
        self.where_true("a report of more than 100,000 bytes", text.len() > 100_000);
        let (first, lines) = text.split_once('\n').expect("a first line");
        let head: Vec<&str> = first.split(' ').collect();
        self.where_true("no finding", head[0] == "0");
        self.where_true("a thickness", head[1] != "-");
        self.where_true("a bend", head[2] != "0");
        self.where_true("a height", head[3] != "-");
        lines.lines().for_each(|line| self.line(line));
        let severities: HashSet<&str> = lines.lines().filter_map(|line| line.split('|').next()).collect();
        self.where_true("lines of three severities", severities.len() == 3);
    }

    fn line(&mut self, line: &str) {
        findings::of_line(line).iter().for_each(|what| self.add(what));
        let fields: Vec<&str> = line.split('|').collect();
        let id = |face: &str| face.split_once(':').map(|(f, i)| (f.parse::<u32>().ok(), i.parse::<u32>().ok()));
        let faces: Vec<_> = fields[3].split(',').map(id).collect();
        self.where_true("a line of more than 1,000 faces", faces.len() > 1000);
        if let (&[a, b], "1") = (&faces[..], fields[2]) {
            self.where_true("a line of one fault with a face twice", a == b);
            self.where_true("a line of one fault with faces that are not sorted", a > b);
        }
    }

    pub fn and(mut self, other: Seen) -> Seen {
        for (what, count) in other.0 {
            *self.0.entry(what).or_default() += count;
        }
        self
    }

    pub fn count(&self, what: &str) -> u64 {
        self.0.get(what).copied().unwrap_or(0)
    }

    /// How often each occurred.
    pub fn text(&self) -> String {
        self.0.iter().map(|(what, count)| format!("{what}: {count}")).collect::<Vec<_>>().join("; ")
    }

    /// What occurs fewer times than it has to, of those that are wanted.
    pub fn too_rare(&self) -> Vec<String> {
        let least = |what: &str| LEAST.iter().find(|f| f.0 == what).map_or(RAREST, |f| f.1);
        Seen::wanted().0.into_keys().filter(|what| self.count(what) < least(what)).collect()
    }
}

fn answer(number: u32) -> String {
    if number == 0 {
        return "answered with a report".into();
    }
    format!("refused {number}")
}
