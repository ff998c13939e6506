//! A plain reader that makes the tests of refusals 1 to 7, for the benchmark: one pass, no allocation.

fn word(b: &[u8], at: usize) -> u32 {
    u32::from_le_bytes(b[at..at + 4].try_into().unwrap())
}

fn real(b: &[u8], at: usize) -> f64 {
    f64::from_le_bytes(b[at..at + 8].try_into().unwrap())
}

fn vector(b: &[u8], at: usize) -> [f64; 3] {
    [real(b, at), real(b, at + 8), real(b, at + 16)]
}

fn within(lo: f64, x: f64, hi: f64) -> bool {
    lo <= x && x <= hi
}

fn all_within(v: [f64; 3], most: f64) -> bool {
    v.iter().all(|&c| within(-most, c, most))
}

fn is_direction(v: [f64; 3]) -> bool {
    let [x, y, z] = v;
    all_within(v, 2.0) && within(0.25, x * x + y * y + z * z, 4.0)
}

/// Fields of eight bytes, all zero bits: by words, several times as fast as byte by byte.
fn is_zero(b: &[u8]) -> bool {
    b.chunks_exact(8).all(|word| *word == [0; 8])
}

fn job_is_good(b: &[u8]) -> bool {
    let flags = word(b, 4);
    let [material, nozzle, overhang, ratio] = [1, 2, 4, 8].map(|flag| flags & flag != 0);
    let flagged_real = |at, flag: bool, lo, hi| if flag { within(lo, real(b, at), hi) } else { is_zero(&b[at..at + 8]) };
    let flagged_word = |at, flag: bool, lo, hi| if flag { (lo..=hi).contains(&word(b, at)) } else { word(b, at) == 0 };
    let length = word(b, 76) as usize;
    word(b, 0) <= 4
        && flags <= 15
        && (material || !ratio)
        && is_direction(vector(b, 8))
        && within(0.001, real(b, 32), 1e3)
        && flagged_real(40, nozzle, 0.0, 1e3)
        && within(0.0, real(b, 48), 1e4)
        && within(0.0, real(b, 56), 1e4)
        && flagged_word(64, overhang, 0, 900)
        && flagged_word(68, material, 0, 1)
        && flagged_word(72, ratio, 0, 100_000)
        && flagged_word(76, material, 1, 40)
        && flagged_real(80, material, -1e4, 1e4)
        && b[88..88 + length].iter().all(|c| (0x20..=0x7e).contains(c))
        && b[88 + length..128].iter().all(|&c| c == 0)
}

/// A polygon entry's surface.
fn surface_is_good(b: &[u8]) -> bool {
    let axis = || all_within(vector(b, 24), 1e4) && is_direction(vector(b, 48));
    match word(b, 16) {
        0 | 3 => is_zero(&b[24..80]),
        1 => axis() && within(0.001, real(b, 72), 1e4),
        2 => axis() && is_zero(&b[72..80]),
        _ => false,
    }
}

/// The end of the run of an entry whose run begins at `first`.
fn run_end(b: &[u8], first: u32, vertices: u32) -> Option<u32> {
    let count = word(b, 12);
    let good = word(b, 8) == first && (3..=64).contains(&count) && count <= vertices - first && word(b, 20) == 0;
    (good && surface_is_good(b)).then_some(first + count)
}

/// The lowest number from 1 to 7 that turns the file back, 0 for none.
pub fn verdict(file: &[u8]) -> u32 {
    if file.len() < 144 {
        return 1;
    }
    let (body, trailer) = file.split_at(file.len() - 16);
    if word(trailer, 0) != 1 {
        return 2;
    }
    let (v, p) = (word(trailer, 4), word(trailer, 8));
    if v > 16_384 || p > 4_096 {
        return 3;
    }
    if file.len() != (24 * v + 80 * p + 144) as usize || word(trailer, 12) != 80 * p + 144 {
        return 4;
    }
    let (vertices, rest) = body.split_at(24 * v as usize);
    let (entries, job) = rest.split_at(80 * p as usize);
    if !job_is_good(job) {
        return 5;
    }
    if !vertices.chunks_exact(24).all(|b| all_within(vector(b, 0), 1e4)) {
        return 6;
    }
    let mut runs = entries.chunks_exact(80);
    if runs.try_fold(0, |first, b| run_end(b, first, v)) != Some(v) {
        return 7;
    }
    0
}
