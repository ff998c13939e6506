//! Damaged copies of good files, mostly by one field set to a bad or an edge value.
use crate::generate::draw::Draw;

const WORDS: [u32; 12] = [0, 1, 2, 3, 4, 5, 64, 65, 255, 0x100, 0x8000_0000, u32::MAX];
const JOB: usize = 128;
const TRAILER: usize = 16;

/// What was done, for `--names`.
pub fn damage(d: &mut Draw, file: &mut Vec<u8>) -> &'static str {
    match d.below(24) {
        0 => shorten(d, file),
        1 => lengthen(d, file),
        2 => edition(d, file),
        3 => counts(d, file),
        4 => back(d, file),
        5..=7 => job_word(d, file),
        8..=10 => job_float(d, file),
        11 => name(d, file),
        12 | 13 => coordinate(d, file),
        14 | 15 => entry_word(d, file),
        16 | 17 => entry_float(d, file),
        18..=20 => degenerate(d, file),
        21 | 22 => counts(d, file),
        _ => spare_vertices(d, file),
    }
}

/// True while the counts fit the file, so that its fields can be found.
pub fn is_whole(file: &[u8]) -> bool {
    file.len() >= JOB + TRAILER && {
        let (v, p) = (vertices(file) as u64, polygons(file) as u64);
        24 * v + 80 * p + (JOB + TRAILER) as u64 == file.len() as u64
    }
}

fn word(file: &[u8], at: usize) -> u32 {
    u32::from_le_bytes(file[at..at + 4].try_into().unwrap())
}

fn set(file: &mut [u8], at: usize, n: u32) {
    file[at..at + 4].copy_from_slice(&n.to_le_bytes());
}

fn set_float(file: &mut [u8], at: usize, x: f64) {
    file[at..at + 8].copy_from_slice(&x.to_le_bytes());
}

fn trailer(file: &[u8]) -> usize {
    file.len() - TRAILER
}

fn job(file: &[u8]) -> usize {
    file.len() - TRAILER - JOB
}

fn vertices(file: &[u8]) -> usize {
    word(file, trailer(file) + 4) as usize
}

fn polygons(file: &[u8]) -> usize {
    word(file, trailer(file) + 8) as usize
}

/// Cut to under 144 bytes, or by some bytes at an end.
fn shorten(d: &mut Draw, file: &mut Vec<u8>) -> &'static str {
    let length = file.len();
    match d.below(4) {
        0 => file.truncate(d.from(0, 143)),
        1 => drop(file.drain(..length - d.pick(&[143, 143, 142, 16, 0]))),
        2 => file.truncate(length - d.from(1, 40)),
        _ => drop(file.drain(..d.from(1, 40))),
    }
    "shortened"
}

fn lengthen(d: &mut Draw, file: &mut Vec<u8>) -> &'static str {
    let more: Vec<u8> = (0..d.pick(&[1, 2, 16, 24, 80])).map(|_| d.bits() as u8).collect();
    let at = d.pick(&[0, file.len()]);
    file.splice(at..at, more);
    "lengthened"
}

fn edition(d: &mut Draw, file: &mut [u8]) -> &'static str {
    set(file, trailer(file), d.pick(&[0, 2, 3, 0x0100_0000, u32::MAX]));
    "edition"
}

/// Counts that do not fit, over the limits, or (10 vertices are as long as 3 polygons) fit the
/// length only.
fn counts(d: &mut Draw, file: &mut [u8]) -> &'static str {
    let t = trailer(file);
    let (v, p) = (word(file, t + 4), word(file, t + 8));
    let (new_v, new_p) = match d.below(9) {
        0 => (16_385, p),
        1 => (v, 4_097),
        2 => (16_384, p),
        3 => (v, 4_096),
        4 => (v + 1, p),
        5 => (v, p.wrapping_sub(1)),
        6 => (v + 10, p.wrapping_sub(3)),
        7 => (v.wrapping_sub(10), p + 3),
        _ => (d.pick(&[u32::MAX, 0, 0x8000_0000]), d.pick(&[p, 0, u32::MAX])),
    };
    set(file, t + 4, new_v);
    set(file, t + 8, new_p);
    if d.one_in(2) {
        set(file, t + 12, new_p.wrapping_mul(80).wrapping_add(144));
    }
    "counts"
}

fn back(d: &mut Draw, file: &mut [u8]) -> &'static str {
    let at = trailer(file) + 12;
    let right = word(file, at);
    let by = d.pick(&[1, u32::MAX, 80, 0x8000_0000, right.wrapping_neg()]);
    set(file, at, right.wrapping_add(by));
    "back"
}

/// Process, flags, tenths, class, ratio, name length.
fn job_word(d: &mut Draw, file: &mut [u8]) -> &'static str {
    let base = job(file);
    let (at, own, what): (usize, &[u32], _) = match d.below(8) {
        0 => (0, &[0, 1, 2, 3, 4, 5], "process"),
        1 | 2 => (4, &[0, 1, 2, 4, 8, 9, 15, 16, 31], "flags"),
        3 => (64, &[0, 450, 899, 900, 901], "tenths"),
        4 => (68, &[0, 1, 2], "class"),
        5 | 6 => (72, &[0, 1000, 99_999, 100_000, 100_001], "ratio"),
        _ => (76, &[0, 1, 39, 40, 41], "name length"),
    };
    let n = match d.below(5) {
        0 => d.pick(&WORDS),
        1 => word(file, base + at) ^ (1 << d.below(32)),
        _ => d.pick(own),
    };
    set(file, base + at, n);
    what
}

/// A value at an end of a range, one step within or beyond, or no number at all.
fn edge(d: &mut Draw, lo: f64, hi: f64) -> f64 {
    match d.below(14) {
        0 => lo,
        1 => hi,
        2 => lo.next_up(),
        3 => lo.next_down(),
        4 => hi.next_up(),
        5 => hi.next_down(),
        6 => f64::NAN,
        7 => f64::from_bits(0xfff0_0000_0000_0001),
        8 => f64::INFINITY,
        9 => f64::NEG_INFINITY,
        10 => -0.0,
        11 => 0.0,
        12 => d.pick(&[5e-324, -5e-324, f64::MAX, f64::MIN]),
        _ => f64::from_bits(d.bits()),
    }
}

/// Up, layer, nozzle, the two least sizes, the material's least wall.
fn job_float(d: &mut Draw, file: &mut [u8]) -> &'static str {
    let base = job(file);
    let (at, lo, hi, what) = match d.below(7) {
        0 | 1 => return up(d, file, base + 8),
        2 => (32, 0.001, 1e3, "layer"),
        3 => (40, 0.0, 1e3, "nozzle"),
        4 => (48, 0.0, 1e4, "min_wall"),
        5 => (56, 0.0, 1e4, "min_hole"),
        _ => (80, -1e4, 1e4, "material wall"),
    };
    set_float(file, base + at, edge(d, lo, hi));
    what
}

/// One component, or a whole vector of squared length about 0.25 or 4.
fn up(d: &mut Draw, file: &mut [u8], at: usize) -> &'static str {
    direction(d, file, at);
    "up"
}

fn direction(d: &mut Draw, file: &mut [u8], at: usize) {
    let axis = d.below(3);
    if d.one_in(2) {
        set_float(file, at + 8 * axis, edge(d, -2.0, 2.0));
        return;
    }
    let length = d.pick(&[0.5, 2.0]);
    for k in 0..3 {
        let c = if k == axis { d.beside(length) } else { d.pick(&[0.0, 0.0, -0.0, 1e-8]) };
        set_float(file, at + 8 * k, c);
    }
}

fn name(d: &mut Draw, file: &mut [u8]) -> &'static str {
    let at = job(file) + 88 + d.pick(&[0, 0, 1, 5, 20, 38, 39]);
    file[at] = d.pick(&[0, 0x1f, 0x20, 0x7c, 0x7e, 0x7f, 0x80, 0xff]);
    "name byte"
}

fn coordinate(d: &mut Draw, file: &mut [u8]) -> &'static str {
    let v = vertices(file);
    if v > 0 {
        set_float(file, 24 * d.below(v) + 8 * d.below(3), edge(d, -1e4, 1e4));
    }
    "coordinate"
}

fn draw_entry(d: &mut Draw, file: &[u8]) -> Option<usize> {
    let (v, p) = (vertices(file), polygons(file));
    let i = match d.below(3) {
        0 => 0,
        1 => p.saturating_sub(1),
        _ => d.below(p.max(1)),
    };
    (p > 0).then_some(24 * v + 80 * i)
}

/// Face, first vertex, count, kind, and the word that is zero.
fn entry_word(d: &mut Draw, file: &mut [u8]) -> &'static str {
    let Some(at) = draw_entry(d, file) else { return "no entry" };
    let field = d.pick(&[0, 1, 2, 2, 3, 3, 3, 4, 4, 5]);
    let old = word(file, at + 4 * field);
    let n = match d.below(4) {
        0 => old.wrapping_add(1),
        1 => old.wrapping_sub(1),
        _ => d.pick(&WORDS),
    };
    set(file, at + 4 * field, n);
    ["feature", "index", "first vertex", "vertex count", "kind", "zero word"][field]
}

/// Origin, direction, radius: of use to the kind or not.
fn entry_float(d: &mut Draw, file: &mut [u8]) -> &'static str {
    let Some(at) = draw_entry(d, file) else { return "no entry" };
    if d.one_in(2) {
        // A kind that has use for the fields, so that their ranges are tried.
        let kind = d.pick(&[1, 1, 2]);
        set(file, at + 16, kind);
        for k in 0..3 {
            set_float(file, at + 48 + 8 * k, f64::from(u8::from(k == 2)));
        }
        set_float(file, at + 72, if kind == 1 { 1.0 } else { 0.0 });
    }
    match d.below(4) {
        0 => set_float(file, at + 24 + 8 * d.below(3), edge(d, -1e4, 1e4)),
        1 | 2 => set_float(file, at + 72, edge(d, 0.001, 1e4)),
        _ => direction(d, file, at + 48),
    }
    "entry float"
}

/// A polygon whose vertices are all one, on a line, or so near that the normal's sum, which is
/// 2e-7 times the height of the second vertex, is about 1e-14.
fn degenerate(d: &mut Draw, file: &mut [u8]) -> &'static str {
    let Some(at) = draw_entry(d, file) else { return "no entry" };
    let (first, count) = (word(file, at + 8) as usize, word(file, at + 12) as usize);
    if first + count > vertices(file) {
        return "no entry";
    }
    let flat = d.one_in(2);
    let slope = if flat { d.pick(&[0.0, 0.0, 1.0, 0.3]) } else { 0.0 };
    let along = if flat { d.pick(&[0.0, 1.0, 0.1]) } else { 1e-7 };
    for k in 0..count {
        let v = 24 * (first + k);
        let x = along * k as f64;
        let y = if !flat && k == 1 { d.steps(0.5e-7) } else { slope * x };
        set_float(file, v, x);
        set_float(file, v + 8, y);
        set_float(file, v + 16, 0.0);
    }
    "degenerate"
}

/// Vertices after the last run.
fn spare_vertices(d: &mut Draw, file: &mut Vec<u8>) -> &'static str {
    let (v, more) = (vertices(file), d.pick(&[1, 1, 3]));
    let at = 24 * v;
    file.splice(at..at, vec![0u8; 24 * more]);
    let t = trailer(file);
    set(file, t + 4, (v + more) as u32);
    "spare vertices"
}
