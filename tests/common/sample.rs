//! Small good part files: one of every kind of surface under every combination of flags.
use crate::field::{set_real, set_word};

/// The flags that a good file can have: a bend ratio needs a material.
pub const GOOD_FLAGS: [u32; 12] = [0, 1, 2, 3, 4, 5, 6, 7, 9, 11, 13, 15];

/// A job with these flags, each flagged field with a value in its range and not zero.
pub fn job(process: u32, flags: u32, name: &[u8]) -> Vec<u8> {
    let mut job = vec![0; 128];
    let has = |flag: u32| flags & flag != 0;
    set_word(&mut job, 0, process);
    set_word(&mut job, 4, flags);
    set_real(&mut job, 16, 1.0);
    set_real(&mut job, 32, 0.2);
    set_real(&mut job, 48, 0.8);
    set_real(&mut job, 56, 2.0);
    if has(2) {
        set_real(&mut job, 40, 0.4);
    }
    if has(4) {
        set_word(&mut job, 64, 450);
    }
    if has(8) {
        set_word(&mut job, 72, 1500);
    }
    if has(1) {
        set_word(&mut job, 68, 1);
        set_word(&mut job, 76, name.len() as u32);
        set_real(&mut job, 80, 0.5);
        job[88..88 + name.len()].copy_from_slice(name);
    }
    job
}

/// An entry of this kind; cylinders and revolved faces stand along z.
pub fn entry(face: u32, first: usize, count: usize, kind: u32) -> Vec<u8> {
    let mut entry = vec![0; 80];
    for (i, n) in [face, face + 1, first as u32, count as u32, kind].into_iter().enumerate() {
        set_word(&mut entry, 4 * i, n);
    }
    if kind == 1 || kind == 2 {
        set_real(&mut entry, 24, 3.0);
        set_real(&mut entry, 64, 1.0);
    }
    if kind == 1 {
        set_real(&mut entry, 72, 2.5);
    }
    entry
}

/// A file of polygons of these counts, their kinds in turn from `kind` on.
pub fn file(counts: &[usize], kind: u32, job: &[u8]) -> Vec<u8> {
    let vertices: usize = counts.iter().sum();
    let mut file = Vec::new();
    for i in 0..vertices {
        // round a circle of fractions, so that a polygon has a normal
        let (x, y) = [(1.0, 0.0), (0.0, 1.0), (-1.0, 0.0), (0.0, -1.0)][i % 4];
        let step = (i % 16) as f64;
        [x * (8.0 + step), y * (8.0 - step / 4.0), step / 8.0].iter().for_each(|c: &f64| file.extend(c.to_le_bytes()));
    }
    let mut first = 0;
    for (i, &count) in counts.iter().enumerate() {
        file.extend(entry(i as u32, first, count, (kind + i as u32) % 4));
        first += count;
    }
    file.extend(job);
    let polygons = counts.len() as u32;
    [1, vertices as u32, polygons, 80 * polygons + 144].iter().for_each(|n| file.extend(n.to_le_bytes()));
    file
}
