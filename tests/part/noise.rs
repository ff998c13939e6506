//! Random bytes of random length from 0 on; some with a trailer that fits, some with a good job, so that the later refusals have their turn.
use crate::compare::Compare;
use common::damage::damage;
use common::field::Blocks;
use common::random::Random;
use common::sample::{file, job, GOOD_FLAGS};
use common::Check;

pub fn run(c: &mut Compare, scale: u64) {
    let mut random = Random(3);
    for number in 0..20_000 * scale {
        let most = 1 << random.below(12);
        let length = random.below(most) as usize;
        let mut noise = bytes(&mut random, length);
        c.check(&noise, || format!("noise {number}"));
        if length >= 16 {
            noise[length - 16..length - 12].copy_from_slice(&1u32.to_le_bytes());
            c.check(&noise, || format!("noise {number}, edition 1"));
        }
        let mut good = draw(&mut random);
        blocks_of_noise(&mut random, &mut good);
        c.check(&good, || format!("noise {number}, counts that fit"));
        let mut damaged = draw(&mut random);
        for _ in 0..1 + random.below(4) {
            damage(&mut random, &mut damaged);
        }
        c.check(&damaged, || format!("drawn file {number}, damaged"));
    }
}

fn bytes(random: &mut Random, length: usize) -> Vec<u8> {
    (0..length).map(|_| random.next() as u8).collect()
}

/// A small good file.
fn draw(random: &mut Random) -> Vec<u8> {
    let counts: Vec<usize> = (0..random.below(6)).map(|_| 3 + random.below(6) as usize).collect();
    let name: Vec<u8> = (0..1 + random.below(40)).map(|_| 0x20 + random.below(95) as u8).collect();
    let flags = GOOD_FLAGS[random.below(12) as usize];
    file(&counts, random.below(4) as u32, &job(random.below(5) as u32, flags, &name))
}

/// Vertices, entries or the job of a good file, replaced by noise.
fn blocks_of_noise(random: &mut Random, file: &mut [u8]) {
    let blocks = Blocks::of(file).unwrap();
    let (vertices, entries, job) = (0..blocks.entry(0), blocks.entry(0)..blocks.job(), blocks.job()..blocks.trailer());
    for range in [vertices, entries, job] {
        if random.below(3) == 0 {
            file[range].fill_with(|| random.next() as u8);
        }
    }
}
