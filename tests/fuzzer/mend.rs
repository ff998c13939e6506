//! Bytes made into a file that can be read, where little is wrong with them.
use common::field::{real, set_bits, set_word, word, Blocks};
use common::mesh::{Mesh, MOST_POINTS, MOST_POLYGONS, MOST_VERTICES};
use common::sample;

/// The polygons of a file whose counts fit its length, wherever their runs are.
pub fn readable(file: &[u8]) -> Option<Mesh> {
    let blocks = Blocks::of(file).filter(|b| b.vertices <= MOST_VERTICES && b.polygons <= MOST_POLYGONS)?;
    let good = |i: usize| {
        let (first, count) = (word(file, blocks.entry(i) + 8) as usize, word(file, blocks.entry(i) + 12) as usize);
        (3..=MOST_POINTS).contains(&count) && first <= blocks.vertices && first + count <= blocks.vertices
    };
    (0..blocks.polygons).all(good).then(|| Mesh::read(file))
}

/// Trailer, runs, flags and coordinates as they have to be; the rest as it is.
pub fn mended(file: &[u8]) -> Vec<u8> {
    let n = file.len();
    if n < 144 {
        return Mesh::empty().bytes();
    }
    let polygons = (word(file, n - 8) as usize).min((n - 144) / 152).min(MOST_POLYGONS);
    let vertices = ((n - 144 - 80 * polygons) / 24).min(MOST_VERTICES).min(MOST_POINTS * polygons);
    let mut made = file[n - 144 - 80 * polygons - 24 * vertices..].to_vec();
    let trailer = made.len() - 16;
    for (k, number) in [1, vertices, polygons, 80 * polygons + 144].into_iter().enumerate() {
        set_word(&mut made, trailer + 4 * k, number as u32);
    }
    (0..3 * vertices).for_each(|k| number(&mut made, 8 * k, -1e4, 1e4));
    runs(&mut made, Blocks { vertices, polygons });
    job(&mut made[trailer - 128..trailer]);
    made
}

fn number(bytes: &mut [u8], at: usize, lo: f64, hi: f64) {
    let x = real(bytes, at);
    if !(lo <= x && x <= hi) {
        set_bits(bytes, at, if x.is_nan() { lo } else { x.clamp(lo, hi) }.to_bits());
    }
}

/// Each polygon has as many vertices as it says, where enough are left for the others; the last has the rest.
fn runs(file: &mut [u8], blocks: Blocks) {
    let mut first = 0;
    for i in 0..blocks.polygons {
        let (at, after) = (blocks.entry(i), blocks.polygons - i - 1);
        let left = blocks.vertices - first;
        let (least, most) = (3.max(left.saturating_sub(MOST_POINTS * after)), MOST_POINTS.min(left - 3 * after));
        let count = if after == 0 { left } else { (word(file, at + 12) as usize).max(least).min(most) };
        set_word(file, at + 8, first as u32);
        set_word(file, at + 12, count as u32);
        set_word(file, at + 20, 0);
        let kind = word(file, at + 16) % 4;
        surface(&mut file[at..at + 80], kind);
        first += count;
    }
}

/// The fields that a kind has no use for are zero; a direction or radius out of its range is that of a small good file.
pub fn surface(entry: &mut [u8], kind: u32) {
    set_word(entry, 16, kind);
    if kind == 0 || kind == 3 {
        return entry[24..80].fill(0);
    }
    let good = sample::entry(0, 0, 0, kind);
    (0..3).for_each(|k| number(entry, 24 + 8 * k, -1e4, 1e4));
    if !is_direction(entry, 48) {
        entry[48..72].copy_from_slice(&good[48..72]);
    }
    if kind == 2 {
        return entry[72..80].fill(0);
    }
    number(entry, 72, 0.001, 1e4);
}

fn is_direction(bytes: &[u8], at: usize) -> bool {
    let v = [0, 8, 16].map(|k| real(bytes, at + k));
    let square = v[0] * v[0] + v[1] * v[1] + v[2] * v[2];
    (0.25..=4.0).contains(&square) && v.iter().all(|c| c.abs() <= 2.0)
}

pub fn job(job: &mut [u8]) {
    let process = word(job, 0);
    set_word(job, 0, if process <= 4 { process } else { process % 5 });
    let mut flags = word(job, 4) & 15;
    flags &= if flags & 1 == 0 { 7 } else { 15 };
    set_word(job, 4, flags);
    if !is_direction(job, 8) {
        [0.0, 0.0, 1.0].into_iter().enumerate().for_each(|(k, c): (usize, f64)| set_bits(job, 8 + 8 * k, c.to_bits()));
    }
    number(job, 32, 0.001, 1e3);
    number(job, 40, 0.0, 1e3);
    number(job, 48, 0.0, 1e4);
    number(job, 56, 0.0, 1e4);
    number(job, 80, -1e4, 1e4);
    for (at, flag, most) in [(64, 4, 900), (68, 1, 1), (72, 8, 100_000), (76, 1, 40)] {
        let value = word(job, at).min(most);
        set_word(job, at, if flags & flag != 0 { value } else { 0 });
    }
    if flags & 2 == 0 {
        job[40..48].fill(0);
    }
    name(job, flags);
}

fn name(job: &mut [u8], flags: u32) {
    if flags & 1 == 0 {
        return job[80..128].fill(0);
    }
    let length = word(job, 76).max(1);
    set_word(job, 76, length);
    let (used, rest) = job[88..128].split_at_mut(length as usize);
    used.iter_mut().filter(|b| !(0x20..=0x7e).contains(*b)).for_each(|b| *b = b'A' + *b % 26);
    rest.fill(0);
}
