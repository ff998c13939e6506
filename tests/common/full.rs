//! Files at the most vertices and polygons, and one past.
use crate::damage::damage;
use crate::field::{set_real, set_word, word, Blocks};
use crate::random::Random;
use crate::sample::{file, job};
use crate::Check;

pub fn run(c: &mut impl Check, scale: u64) {
    let mut random = Random(4);
    let job = job(4, 15, b"Nylon 12");
    for (count, polygons) in [(4, 4_096), (64, 256), (3, 4_096), (64, 255), (4, 4_097), (3, 4_097), (64, 257)] {
        let full = file(&vec![count; polygons], 0, &job);
        c.check(&full, || format!("{polygons} polygons of {count} vertices"));
        ends(c, &full);
        for copy in 0..10 * scale {
            let mut damaged = full.clone();
            damage(&mut random, &mut damaged);
            c.check(&damaged, || format!("{polygons} polygons of {count} vertices, damaged, {copy}"));
        }
    }
    for (v, p) in [(16_384, 0), (16_385, 0), (0, 4_096), (0, 4_097), (16_384, 4_096), (16_385, 4_096), (16_384, 4_097)] {
        let mut zeros = vec![0; 24 * v + 80 * p];
        zeros.extend(&job);
        [1, v as u32, p as u32, 80 * p as u32 + 144].iter().for_each(|n| zeros.extend(n.to_le_bytes()));
        c.check(&zeros, || format!("{v} vertices and {p} polygons of zeros"));
        counts_that_wrap(c, &mut zeros);
    }
}

/// The last coordinate and the last entry, out of range.
fn ends(c: &mut impl Check, full: &[u8]) {
    let blocks = Blocks::of(full).unwrap();
    let mut last = full.to_vec();
    set_real(&mut last, 24 * blocks.vertices - 8, 1e4f64.next_up());
    c.check(&last, || "the last coordinate past its end".into());
    let mut last = full.to_vec();
    set_word(&mut last, blocks.job() - 60, 1);
    c.check(&last, || "the last entry's zero not zero".into());
}

/// Counts for which a length of 32 bits comes out as it should.
fn counts_that_wrap(c: &mut impl Check, file: &mut [u8]) {
    let t = file.len() - 16;
    let (v, p) = (word(file, t + 4), word(file, t + 8));
    for (more_v, more_p) in [(1 << 29, 0), (1 << 31, 0), (0, 1 << 28), (0, 1 << 31), (1 << 29, 1 << 28)] {
        set_word(file, t + 4, v.wrapping_add(more_v));
        set_word(file, t + 8, p.wrapping_add(more_p));
        c.check(file, || format!("{v} + {more_v} vertices, {p} + {more_p} polygons"));
    }
}
