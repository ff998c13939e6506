//! Small files, one change at a time: every bit, every field with every value to try, every length, and every choice of flags.
use crate::field::{set, set_bits, set_word, values, Blocks};
use crate::random::Random;
use crate::sample::{file, job, GOOD_FLAGS};
use crate::Check;

const NAMES: [&[u8]; 4] = [b"Nylon 12", b" ", b"~", b"A name that fills all of the forty bytes"];

pub fn run(c: &mut impl Check, scale: u64) {
    let mut random = Random(1);
    let processes = if scale == 1 { 1 } else { 5 };
    for (i, flags) in GOOD_FLAGS.into_iter().enumerate() {
        for k in 0..processes {
            let job = job((i as u32 + k) % 5, flags, NAMES[(i + k as usize) % 4]);
            let base = file(&[3, 4, 3, 5], k, &job);
            c.check(&base, || format!("good, flags {flags}"));
            each_bit(c, &base);
            each_field(c, &base);
            each_length(c, &mut random, &base);
            each_block(c, &base);
        }
    }
    each_choice_of_flags(c);
    each_run(c);
}

fn each_bit(c: &mut impl Check, base: &[u8]) {
    let mut file = base.to_vec();
    for at in 0..file.len() {
        for bit in 0..8 {
            file[at] ^= 1 << bit;
            c.check(&file, || format!("bit {bit} of byte {at}"));
            file[at] ^= 1 << bit;
        }
    }
}

fn each_field(c: &mut impl Check, base: &[u8]) {
    for field in Blocks::of(base).unwrap().fields() {
        let mut file = base.to_vec();
        for value in values(base, field) {
            set(&mut file, field, value);
            c.check(&file, || format!("{value:x} at {}", field.at));
        }
    }
}

/// Cut at either end to every length, and lengthened at either end.
fn each_length(c: &mut impl Check, random: &mut Random, base: &[u8]) {
    for n in 0..base.len() {
        c.check(&base[..n], || format!("the first {n} bytes"));
        c.check(&base[n..], || format!("without the first {n} bytes"));
    }
    let mut end = base.to_vec();
    let mut front = base.to_vec();
    for n in 1..100 {
        let byte = if n < 50 { 0 } else { random.next() as u8 };
        end.push(byte);
        front.insert(0, byte);
        c.check(&end, || format!("{n} bytes more at the end"));
        c.check(&front, || format!("{n} bytes more in front"));
    }
}

/// A vertex or an entry more or less, the counts and `back` right or wrong by one.
fn each_block(c: &mut impl Check, base: &[u8]) {
    let blocks = Blocks::of(base).unwrap();
    let (v, p) = (blocks.vertices, blocks.polygons);
    for (at, size) in [(0, 24), (24 * (v - 1), 24), (blocks.entry(0), 80), (blocks.entry(p - 1), 80)] {
        let mut less = base.to_vec();
        less.drain(at..at + size);
        let mut more = base.to_vec();
        let copy = base[at..at + size].to_vec();
        more.splice(at..at, copy);
        for file in [less, more, base.to_vec()] {
            each_count(c, file, v as u32, p as u32);
        }
    }
}

fn each_count(c: &mut impl Check, mut file: Vec<u8>, v: u32, p: u32) {
    let t = file.len() - 16;
    for (v, p) in [(v, p), (v - 1, p), (v + 1, p), (v, p - 1), (v, p + 1), (v + 10, p - 3), (v - 10, p + 3), (v, 0), (0, p)] {
        for off in [0, 1, 80, u32::MAX, 1 << 31] {
            set_word(&mut file, t + 4, v);
            set_word(&mut file, t + 8, p);
            set_word(&mut file, t + 12, (80 * p + 144).wrapping_add(off));
            c.check(&file, || format!("{v} vertices, {p} polygons, back off by {off}"));
        }
    }
}

/// All flags, each field that depends on one zero, in range, or zero but for one bit.
fn each_choice_of_flags(c: &mut impl Check) {
    let full = job(0, 15, b"Steel");
    let ranges = [40..48, 64..68, 68..72, 72..76, 76..80, 80..88, 88..128];
    for flags in (0..32).chain([1 << 8, 1 << 16, 1 << 31, u32::MAX]) {
        for choice in 0..3usize.pow(7) {
            let mut job = full.clone();
            set_word(&mut job, 4, flags);
            for (i, range) in ranges.iter().enumerate() {
                let at = range.start;
                match choice / 3usize.pow(i as u32) % 3 {
                    0 => job[range.clone()].fill(0),
                    1 if i == 0 || i == 5 => set_bits(&mut job, at, 1 << 63),
                    1 => job[range.clone()].iter_mut().rev().enumerate().for_each(|(k, b)| *b = (k == 0) as u8),
                    _ => {}
                }
            }
            c.check(&file(&[], 0, &job), || format!("flags {flags:x}, choice {choice}"));
        }
    }
}

/// Runs of every length, alone, and with vertices missing or left over.
fn each_run(c: &mut impl Check) {
    let job = job(0, 0, b"");
    for n in 0..70 {
        c.check(&file(&[n], 0, &job), || format!("a run of {n}"));
        c.check(&file(&[3, n], 1, &job), || format!("a run of {n} after one of 3"));
        c.check(&file(&[n, 3], 2, &job), || format!("a run of {n} before one of 3"));
        let mut spare = file(&[n], 0, &job);
        spare.splice(0..0, [0; 24]);
        let at = spare.len() - 12;
        set_word(&mut spare, at, n as u32 + 1);
        c.check(&spare, || format!("a vertex left after a run of {n}"));
    }
}
