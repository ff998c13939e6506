//! Generated files, each as it is and damaged in one to three places.
use crate::compare::Compare;
use common::damage::damage;
use common::random::Random;
use common::{stream, Check};
use std::io;

pub fn run(c: &mut Compare, copies: u64) -> io::Result<()> {
    let mut random = Random(2);
    stream::each(|number, file| {
        c.check(file, || format!("generated file {number}"));
        // the largest cost most and show least
        for copy in 0..if file.len() < 100_000 { copies } else { 1 } {
            let mut damaged = file.to_vec();
            for _ in 0..[1, 1, 2, 3][random.below(4) as usize] {
                damage(&mut random, &mut damaged);
            }
            c.check(&damaged, || format!("generated file {number}, copy {copy}"));
        }
    })
}
