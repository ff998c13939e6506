//! The readings, the hits of rays and whether lines leave a part against the Rust's scan with the same rule and against the definitions, bit by bit, and
//! refusals 1 to 10. Takes generated files from standard input; with --quick there are fewer of the others.
mod aim;
mod calls;
mod compare;
mod found;
mod tried;

use common::mesh::Mesh;
use common::random::Random;
use common::{change, large, shapes, stream, trees, walls};
use compare::Compare;
use std::io;
use std::thread;

/// Changed copies of larger files cost more than they show.
const LARGE: usize = 100_000;

fn main() {
    let quick = std::env::args().any(|a| a == "--quick");
    let (own, trees, rounds) = if quick { (2_000, 4_000, 1) } else { (60_000, 480_000, 4) };
    let own = thread::spawn(move || {
        let mut c = Compare::new(13);
        own_shapes(&mut c, own);
        large_shapes(&mut c, rounds);
        for_trees(&mut c, 0..trees / 2);
        (c.tally, c.counts)
    });
    let mut c = Compare::new(14);
    from_input(&mut c).expect("a stream of part files");
    for_trees(&mut c, trees / 2..trees);
    let (tally, counts) = own.join().expect("a test thread failed");
    let (files, different) = (tally.compared + c.tally.compared, tally.different + c.tally.different);
    let counts = counts.and(c.counts);
    println!("rays: {}", counts.text());
    let rare = counts.too_rare();
    let few = !quick && !rare.is_empty();
    if few {
        println!("rays: too rare: {}", rare.join("; "));
    }
    println!("rays: {files} files, {} of them accepted, {} rays, {different} differences", counts.count("accepted"), counts.count("rays"));
    std::process::exit((different != 0 || few) as i32);
}

/// Generated files, as they are and now and then changed.
fn from_input(c: &mut Compare) -> io::Result<()> {
    let mut random = Random(15);
    stream::each(|number, file| {
        if c.check(file, || format!("generated file {number}")) == 0 && file.len() < LARGE && random.below(4) == 0 {
            let changed = change::changed(&mut random, &Mesh::read(file));
            c.check(&changed.bytes(), || format!("generated file {number}, changed"));
        }
    })
}

fn own_shapes(c: &mut Compare, count: u64) {
    let mut random = Random(16);
    for number in 0..count {
        let mut mesh = if random.below(4) == 0 { shapes::draw(&mut random) } else { walls::draw(&mut random) };
        c.check(&mesh.bytes(), || format!("shape {number}"));
        for change in 0..random.below(3) {
            mesh = change::changed(&mut random, &mesh);
            c.check(&mesh.bytes(), || format!("shape {number}, changed {} times", change + 1));
        }
    }
}

/// Parts of 9 to 4,096 polygons, each by its number alone, now and then changed.
fn for_trees(c: &mut Compare, numbers: std::ops::Range<u64>) {
    for number in numbers {
        let mut random = Random::of(18, number);
        let mesh = trees::draw(&mut random);
        c.check(&mesh.bytes(), || format!("boxes {number}"));
        if random.below(8) == 0 {
            c.check(&change::changed(&mut random, &mesh).bytes(), || format!("boxes {number}, changed"));
        }
    }
}

fn large_shapes(c: &mut Compare, rounds: u64) {
    let mut random = Random(17);
    for _ in 0..rounds {
        for (name, mesh) in large::for_rays().into_iter().chain(large::for_readings()) {
            c.check(&mesh.bytes(), || name.clone());
            let changed = change::changed(&mut random, &mesh);
            c.check(&changed.bytes(), || format!("{name}, changed"));
        }
    }
}
