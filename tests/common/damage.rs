//! A part file damaged in one place.
use crate::field::{set, set_bits, set_real, set_word, values, word, Blocks, ODD};
use crate::random::Random;
use crate::sample::entry;
use crate::shapes::pick;

pub fn damage(random: &mut Random, file: &mut Vec<u8>) {
    let Some(blocks) = Blocks::of(file) else { return bit(random, file) };
    match random.below(16) {
        0..=6 => {
            let field = blocks.draw(random);
            let list = values(file, field);
            set(file, field, pick(random, &list));
        }
        7 | 8 => bit(random, file),
        9 => length(random, file),
        10 | 11 => up(random, file, blocks),
        12 | 13 => surface(random, file, blocks),
        _ => counts(random, file, blocks),
    }
}

/// Half the time in the job or the trailer.
fn bit(random: &mut Random, file: &mut [u8]) {
    let n = file.len() as u64;
    if n > 0 {
        let from = if random.below(2) == 0 { n.saturating_sub(144) } else { 0 };
        file[(from + random.below(n - from)) as usize] ^= 1 << random.below(8);
    }
}

fn length(random: &mut Random, file: &mut Vec<u8>) {
    let n = file.len();
    let by = 1 + random.below(100) as usize;
    match random.below(6) {
        0 => file.truncate(n.saturating_sub(by)),
        1 => drop(file.drain(..by.min(n))),
        2 => file.extend((0..by).map(|i| i as u8)),
        3 => drop(file.splice(0..0, vec![0; by])),
        4 => file.truncate(random.below(200) as usize),
        _ => drop(file.drain(..n - random.below(150.min(n as u64)) as usize)),
    }
}

fn up(random: &mut Random, file: &mut [u8], blocks: Blocks) {
    direction(random, file, blocks.job() + 8);
}

/// A direction whose squared length is about 0.25 or 4, by a few steps of one component; or one odd component.
fn direction(random: &mut Random, file: &mut [u8], at: usize) {
    if random.below(4) == 0 {
        return set_bits(file, at + 8 * random.below(3) as usize, pick(random, &ODD));
    }
    let length = if random.below(2) == 0 { 0.5 } else { 2.0 };
    let mut v = [0; 3].map(|_| (random.below(2001) as f64 - 1000.0) / 1000.0 * [1.0, 1.0, 0.0][random.below(3) as usize]);
    let norm = v.iter().map(|c| c * c).sum::<f64>().sqrt();
    v = if norm > 0.0 { v.map(|c| c / norm * length) } else { [length, 0.0, -0.0] };
    let axis = random.below(3) as usize;
    for _ in 0..random.below(4) {
        v[axis] = if random.below(2) == 0 { v[axis].next_up() } else { v[axis].next_down() };
    }
    (0..3).for_each(|k| set_real(file, at + 8 * k, v[k]));
}

/// An entry of another kind, with good fields or with a direction at its limit.
fn surface(random: &mut Random, file: &mut [u8], blocks: Blocks) {
    if blocks.polygons == 0 {
        return;
    }
    let at = blocks.entry(random.below(blocks.polygons as u64) as usize);
    let kind = random.below(5) as u32;
    let good = entry(0, 0, 0, kind);
    // now and then the fields of the kind before stay
    let from = if random.below(4) == 0 { 20 } else { 80 };
    file[at + 16..at + from].copy_from_slice(&good[16..from]);
    if random.below(2) == 0 {
        direction(random, file, at + 48);
    }
}

/// Counts that do not fit, a file whose counts are over their ends, or a block more or less where the counts do fit.
fn counts(random: &mut Random, file: &mut Vec<u8>, blocks: Blocks) {
    let (mut v, mut p) = (blocks.vertices as u32, blocks.polygons as u32);
    match random.below(6) {
        0 => v = pick(random, &[16_384, 16_385, 0, u32::MAX, v + 1]),
        1 => p = pick(random, &[4_096, 4_097, 0, u32::MAX, p + 1]),
        2 if v >= 10 => (v, p) = (v - 10, p + 3),
        2 | 3 if p >= 3 => (v, p) = (v + 10, p - 3),
        4 if v > 0 => {
            v -= 1;
            file.drain(..24);
        }
        _ => {
            v += 1;
            file.splice(0..0, [0; 24]);
        }
    }
    let t = file.len() - 16;
    set_word(file, t + 4, v);
    set_word(file, t + 8, p);
    let back = if random.below(8) == 0 { word(file, t + 12) } else { p.wrapping_mul(80).wrapping_add(144) };
    set_word(file, t + 12, back);
}
