//! The check of part files that is lent nothing against the oracle's: the same refusal from 1 to 9 for every file, else 10, and no byte changed.
//! Takes generated files from standard input; with --quick the small files are fewer.
mod compare;
mod generated;
mod noise;

use common::{full, sweep};
use compare::Compare;
use std::thread;

const RAREST: u64 = 1_000;

fn main() {
    let quick = std::env::args().any(|a| a == "--quick");
    let (scale, copies) = if quick { (1, 4) } else { (50, 12) };
    let small = thread::spawn(move || {
        let mut c = Compare::default();
        sweep::run(&mut c, scale);
        noise::run(&mut c, scale);
        full::run(&mut c, scale);
        c
    });
    let mut generated = Compare::default();
    generated::run(&mut generated, copies).expect("a stream of part files");
    let small = small.join().expect("a test thread failed");
    let seen: Vec<u64> = (0..10).map(|i| small.seen[i] + generated.seen[i]).collect();
    let different = small.tally.different + generated.tally.different;
    let accepted = seen[0] + seen[8] + seen[9];
    println!("part: by the oracle's refusal, 1 to 7: {:?}; none of these: {accepted}, of which 8: {}, 9: {}", &seen[1..8], seen[8], seen[9]);
    let rarest = seen[1..8].iter().copied().chain([accepted]).min().unwrap();
    let (small, generated) = (small.tally.compared, generated.tally.compared);
    println!("part: {small} small and large files, {generated} generated ones and damaged copies, the rarest answer {rarest} times, {different} differences");
    let rare = !quick && rarest < RAREST;
    if rare {
        println!("part: an answer occurs fewer than {RAREST} times");
    }
    std::process::exit((different != 0 || rare) as i32);
}
