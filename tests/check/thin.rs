//! Parts whose lengths crowd around 0.1 mm and below, where a length's text has a third decimal: layers of resin, thin walls and floors, short corners,
//! small holes and brackets, several in a part, so that texts that agree in two decimals and not in three stand side by side.
use against::parts;
use against::printing::jobs;
use against::seen::Seen;
use against::sheet::{brackets, jobs as sheet_jobs};
use common::field::{real, set_real, set_word, word};
use common::generate::findings::{self, FINDINGS};
use common::mesh::Mesh;
use common::random::Random;
use common::shapes::{block, nudge, pick};
use common::{bores, voxels};
use oracle::check::Checked;
use two_decimals::check::Checked as CheckedBefore;

/// 0.1, what rounds to it, the layers of resin, halves of the second and of the third decimal, and lengths that print as 0.000.
const LENGTHS: [f64; 28] = [
    0.1, 0.1, 0.1, 0.025, 0.025, 0.03, 0.03, 0.05, 0.0995, 0.0994, 0.09951, 0.0999, 0.1004, 0.1005, 0.105, 0.095, 0.0949, 0.0951, 0.005, 0.0051, 0.0049,
    0.0005, 0.00049, 0.0625, 0.09375, 0.0312, 0.11, 0.12,
];

/// One of the list or near it, a few f64 beside, or anything below 0.13.
pub fn length(random: &mut Random) -> f64 {
    let listed = pick(random, &LENGTHS);
    match random.below(8) {
        0 => 0.001 + 0.0001 * random.below(1300) as f64,
        1 => (listed + 0.0001 * random.below(60) as f64).min(0.13),
        2 | 3 => listed,
        _ => nudge(random, listed),
    }
}

/// The layer, nozzle, least wall and least hole of a resin printer, or of none.
fn resin(random: &mut Random, job: &mut [u8]) {
    set_real(job, 32, if random.below(3) == 0 { length(random).max(0.001) } else { pick(random, &[0.025, 0.03, 0.1, 0.05]) });
    set_real(job, 48, pick(random, &[0.1, 0.2, 0.15, 0.8, 0.05, 0.025]));
    set_real(job, 56, pick(random, &[0.1, 0.5, 0.09, 0.2]));
    if word(job, 4) & 2 == 2 {
        set_real(job, 40, pick(random, &[0.1, 0.4, 0.05, 0.12, 0.03]));
    }
    if word(job, 4) & 1 == 1 {
        set_real(job, 80, pick(random, &[0.1, 0.15, 0.05, 0.8, 0.12]));
    }
}

/// Of any process, most often for resin.
fn job(random: &mut Random) -> Vec<u8> {
    let mut job = if random.below(3) == 0 { parts::job(random) } else { jobs::draw(random) };
    if random.below(8) != 0 {
        resin(random, &mut job);
    }
    job
}

/// Plates side by side, each with faces and a thickness of its own; floors and roofs more often than walls.
fn plates(random: &mut Random) -> Mesh {
    let mut mesh = Mesh::empty();
    let axis = random.below(3) as usize;
    for k in 0..1 + random.below(5) {
        let low = [0, 1, 2].map(|a| if a == (axis + 1) % 3 { 4.0 * k as f64 } else { 0.0 });
        let mut size = [3.0; 3];
        size[axis] = length(random);
        block(&mut mesh, k as u32, low, size, false);
    }
    mesh.job = job(random);
    if random.below(3) != 0 {
        (0..3).for_each(|a| set_real(&mut mesh.job, 8 + 8 * a, if a == axis { 1.0 } else { 0.0 }));
    }
    mesh
}

/// Pits whose corners are so short.
fn corners(random: &mut Random) -> Mesh {
    let mut mesh = voxels::pits(1 + random.below(4) as usize, 0);
    for pit in mesh.polygons.chunks_mut(3) {
        let heights = [0; 3].map(|_| length(random));
        for (i, wall) in pit.iter_mut().enumerate() {
            wall.points[2][2] = heights[i];
            wall.points[3][2] = heights[(i + 1) % 3];
        }
    }
    if random.below(4) == 0 {
        mesh.job = job(random);
    }
    mesh
}

/// Small plates of sheet metal with holes, which say that they are wider than they are: up to an edge, or past it.
fn holed(random: &mut Random) -> Mesh {
    let mut mesh = pick(random, &[brackets::squares, brackets::twins, brackets::draw])(random);
    let by = pick(random, &[1.0, 0.1, 0.05]);
    mesh.scale(by);
    let wider = pick(random, &[1.0, 1.5, 2.0, 4.0, 8.0, 20.0]);
    for entry in mesh.polygons.iter_mut().map(|p| &mut p.entry).filter(|e| word(e, 16) == 1) {
        let radius = (wider * real(entry, 72)).clamp(0.001, 1e4);
        set_real(entry, 72, radius);
    }
    mesh.job = sheet_jobs::draw(random);
    set_word(&mut mesh.job, 0, 1);
    mesh
}

/// Bores and bosses that say that they are so narrow.
fn bored(random: &mut Random) -> Mesh {
    let mut mesh = Mesh::empty();
    (0..1 + random.below(2)).for_each(|_| bores::bore(random, &mut mesh));
    let radii = [0; 2].map(|_| (0.5 * length(random)).max(0.001));
    for polygon in mesh.polygons.iter_mut().filter(|p| word(&p.entry, 16) == 1) {
        let face = polygon.face();
        set_real(&mut polygon.entry, 72, radii[(face.0 + face.1) as usize % 2]);
    }
    mesh.job = job(random);
    if random.below(2) == 0 {
        set_word(&mut mesh.job, 0, 0);
    }
    mesh
}

/// Any other part at a fifth of its size or less, cylinders too.
fn shrunk(random: &mut Random) -> Mesh {
    let mut mesh = parts::draw(random);
    let by = pick(random, &[0.1, 0.1, 0.05, 0.02, 0.2, 0.01, 0.025]);
    mesh.scale(by);
    if random.below(2) == 0 {
        mesh.job = job(random);
    }
    mesh
}

pub fn draw(random: &mut Random) -> Mesh {
    match random.below(16) {
        0..=7 => plates(random),
        8 | 9 => corners(random),
        10 | 11 => holed(random),
        12 => bored(random),
        _ => shrunk(random),
    }
}

/// What is to occur among so many of these parts, and how often.
pub const WANTED: [(&str, u64); 10] = [
    ("thin: accepted", 500_000),
    ("thin: a length of three decimals", 200_000),
    ("thin: 0.100 mm, below 0.1", 10_000),
    ("thin: 0.10 mm, not below 0.1", 10_000),
    ("thin: 0.000 mm", 10_000),
    ("thin: a gap of 0.000 mm", 10_000),
    ("thin: a layer of 0.025 mm", 10_000),
    ("thin: a layer of 0.030 mm", 10_000),
    ("thin: lengths of two and of three decimals in one line", 10_000),
    ("thin: lines that two decimals would merge", 50_000),
];

/// How often each message that prints a length has to print one of three decimals.
const RAREST: u64 = 1_000;

/// Words of the messages that print none.
const NO_LENGTH: [&str; 7] = ["No material", "Not closed", "Material", "Overhang", "resin", "powder", "standard drills"];

/// Of a finding's name, where its message has a length of three decimals.
fn with_three(name: &str) -> String {
    format!("thin: {name}, of three decimals")
}

/// A text that stands before the unit.
fn ends_in(before: &str, decimals: usize) -> bool {
    let digits = before.bytes().rev().take_while(u8::is_ascii_digit).count();
    digits == decimals && before[..before.len() - digits].ends_with('.')
}

/// Counts what an accepted part shows of thin lengths; beside the report of the Rust that writes every length with two decimals.
pub fn count(seen: &mut Seen, file: &[u8]) {
    let Ok(checked) = Checked::of(file) else { return };
    let text = &checked.text;
    let mut add = |number: usize, is: bool| {
        if is {
            seen.add(WANTED[number].0);
        }
    };
    let has = |line: &str, decimals: usize| line.split(" mm").any(|before| ends_in(before, decimals));
    add(0, true);
    add(1, has(text, 3));
    add(2, text.contains(" 0.100 mm"));
    add(3, text.contains(" 0.10 mm"));
    add(4, text.contains(" 0.000 mm"));
    add(5, text.contains("Hole edge is 0.000 mm"));
    add(6, text.contains(" 0.025 mm layer") || text.contains("layers of 0.025 mm"));
    add(7, text.contains(" 0.030 mm layer") || text.contains("layers of 0.030 mm"));
    add(8, text.lines().any(|line| has(line, 2) && has(line, 3)));
    let named = text.lines().skip(1).filter(|line| has(line, 3)).map(|line| with_three(&findings::of_line(line)[0]));
    if has(text, 3) {
        let before = CheckedBefore::of(file).ok().expect("a part that is accepted");
        add(9, before.text.lines().count() < text.lines().count());
    }
    named.for_each(|what| seen.add(&what));
}

/// What occurs fewer times than it has to.
pub fn too_rare(seen: &Seen) -> Vec<String> {
    let messages = FINDINGS.iter().filter(|f| !NO_LENGTH.iter().any(|no| f.1 == *no || f.2 == *no)).map(|f| (with_three(&findings::name(f)), RAREST));
    let wanted = WANTED.iter().map(|(what, least)| (what.to_string(), *least)).chain(messages);
    wanted.filter(|(what, least)| seen.count(what) < *least).map(|(what, _)| what).collect()
}
