//! Times from part file to report beside the Rust's, with the replacements and as published: the reader of part files, the check and the printing,
//! all in the time. And of merging and printing about 2,048 faults, in few lines and in many: ours is the time of the check less that of a check which
//! is lent one fault row too few, so that it finds all faults and is refused before it merges them; the Rust's is taken by itself. Each time is the best
//! of many, taken in turn in one run. A word names the benchmark: machining, sheet and printing time the parts of their processes alone, castings those of
//! one face of 2,048 triangles by every process.
mod holes;
mod plates;
mod prints;
mod timed;

use common::best::best_of;
use common::field::Blocks;
use common::gablemadder::{self, FaultRow};
use common::generate::job::{CNC, FDM, PROCESSES, SHEET, SLA, SLS};
use oracle::check::Checked;
use std::hint::black_box;
use timed::Timed;

/// The rows that the Rust package lends: to a small file, to others at first, and at the most.
const ROWS: [usize; 3] = [64, 256, 2048];
/// A small file, in bytes.
const SMALL_FILE: usize = 11_408;
const REPORT: usize = 1 << 20;
/// Parts of fewer polygons are to take no longer than as published.
const SMALL: usize = 800;

/// What a call is lent.
struct Lent {
    words: Vec<u32>,
    reals: Vec<f64>,
    rows: Vec<FaultRow>,
    report: Vec<u8>,
}

impl Lent {
    fn new(file: &[u8], checked: &Checked) -> Lent {
        let first = usize::from(file.len() > SMALL_FILE);
        let rows = if checked.faults <= ROWS[first] { ROWS[first] } else { ROWS[2] };
        Lent {
            words: vec![0; checked.words],
            reals: vec![0.0; checked.reals],
            rows: vec![FaultRow::default(); rows],
            report: vec![0; REPORT],
        }
    }

    /// The length of the report.
    fn check(&mut self, file: &[u8]) -> usize {
        let mut written = 0;
        let answer = gablemadder::check(file, &mut self.words, &mut self.reals, &mut self.rows, &mut self.report, &mut written);
        assert_eq!(answer, 0, "an accepted file");
        written
    }

    /// Lent one row too few for so many faults: refusal 11, once all are found.
    fn find(&mut self, file: &[u8], faults: usize) -> u32 {
        gablemadder::check(file, &mut self.words, &mut self.reals, &mut self.rows[..faults - 1], &mut self.report, &mut 0)
    }

    fn is_same(&mut self, part: &Timed, checked: &Checked) {
        let n = self.check(&part.file);
        assert_eq!(String::from_utf8_lossy(&self.report[..n]), checked.text, "{}: the report", part.name);
    }
}

/// Fewer of large parts, whose times are long.
fn rounds(polygons: usize) -> usize {
    (100_000 / polygons).clamp(30, 2_000)
}

/// How many polygons there are, and both ratios: to the Rust with the replacements, and as published. The name stands before what is printed.
fn whole(name: &str, part: &Timed) -> (usize, [f64; 2]) {
    let (file, polygons) = (&part.file[..], Blocks::of(&part.file).expect("a good file").polygons);
    let checked = Checked::of(file).ok().expect("an accepted file");
    let mut lent = Lent::new(file, &checked);
    lent.is_same(part, &checked);
    let [ours, theirs, other] = best_of(
        rounds(polygons),
        1000,
        [
            &mut || {
                black_box(lent.check(black_box(file)));
            },
            &mut || drop(black_box(Checked::of(black_box(file)))),
            &mut || drop(black_box(published::check::Checked::of(black_box(file)))),
        ],
    );
    let ratios = [ours / theirs, ours / other];
    println!(
        "{name}, {}, {} ({polygons} polygons; {} faults, {} lines): {ours:.1} µs; \
         the Rust's {theirs:.1} µs with the replacements, {other:.1} µs as published: {:.2} and {:.2} times theirs",
        PROCESSES[part.process as usize],
        part.name,
        checked.faults,
        checked.text.lines().count() - 1,
        ratios[0],
        ratios[1]
    );
    (polygons, ratios)
}

/// The ratio to the Rust, whose merging and printing is the same with the replacements and as published.
fn merging(part: &Timed) -> f64 {
    let file = &part.file[..];
    let checked = Checked::of(file).ok().expect("an accepted file");
    let mut lent = Lent::new(file, &checked);
    let mut other = Lent::new(file, &checked);
    lent.is_same(part, &checked);
    assert_eq!(lent.find(file, checked.faults), 11, "{}: a row too few", part.name);
    let process = oracle::faults::Process::ALL[part.process as usize];
    let found = oracle::faults::Part::read(file).ok().expect("an accepted file").report(process);
    let rounds = 60;
    // the Rust's merging takes its findings apart, so that each round needs its own
    let mut copies = vec![found; rounds];
    let [all, finding, theirs] = best_of(
        rounds,
        1000,
        [
            &mut || {
                black_box(lent.check(black_box(file)));
            },
            &mut || {
                black_box(other.find(black_box(file), checked.faults));
            },
            &mut || drop(black_box(oracle::check::printed(copies.pop().expect("one for each round")))),
        ],
    );
    let ours = all - finding;
    let lines = checked.text.lines().count() - 1;
    println!(
        "merging and printing, {}, {} ({} faults, {lines} lines, {} bytes): {all:.1} µs less {finding:.1} µs for finding them are {ours:.1} µs; \
         the Rust's {theirs:.1} µs: {:.2} times theirs",
        PROCESSES[part.process as usize],
        part.name,
        checked.faults,
        checked.text.len(),
        ours / theirs
    );
    ours / theirs
}

fn main() {
    let name = std::env::args().nth(1).expect("the name of a benchmark");
    let (processes, many): (&[u32], Vec<Timed>) = match &name[..] {
        "machining" => (&[CNC], Vec::new()),
        "sheet" => (&[SHEET], Vec::new()),
        "printing" => (&[FDM, SLA, SLS], Vec::new()),
        "castings" => (&[CNC, SHEET, FDM, SLA, SLS], Vec::new()),
        _ => (&[CNC, SHEET, FDM, SLA, SLS], timed::of_many_faults()),
    };
    let all = if name == "castings" { timed::of_one_face() } else { timed::by_size() };
    let parts = all.into_iter().filter(|part| processes.contains(&part.process));
    let mut ratios: Vec<(usize, [f64; 2])> = parts.map(|part| whole("check", &part)).collect();
    ratios.extend(many.iter().map(|part| whole("check of many faults", part)));
    let most = |list: &mut dyn Iterator<Item = f64>| list.fold(0.0, f64::max);
    let slower = ratios.iter().filter(|r| r.1[0] > 1.0).count();
    let merged = if many.is_empty() {
        String::new()
    } else {
        format!("; merging and printing at most {:.2} times", most(&mut many.iter().map(merging)))
    };
    println!(
        "{name}: at most {:.2} times the Rust's time with the replacements, slower in {slower} of {}; below {SMALL} polygons at most {:.2} times as \
         published{merged}",
        most(&mut ratios.iter().map(|r| r.1[0])),
        ratios.len(),
        most(&mut ratios.iter().filter(|r| r.0 < SMALL).map(|r| r.1[1])),
    );
}
