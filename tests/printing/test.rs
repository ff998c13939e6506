//! The check of printed parts against the patched Rust's (tests/against/compare.rs), with each rule of printing at its limits, counted by the Rust's faults
//! before it merges equal ones. Takes generated files from standard input; with --quick there are fewer of the others.
mod closed;
mod dials;
mod shells;
mod steps;
mod undersides;
mod wanted;

use against::arrange;
use against::frame::{self, Files};
use against::printing::fit::{self, Fit};
use against::printing::{floors, hollows, jobs, over, ups};
use common::mesh::Mesh;
use common::random::Random;
use common::shapes::{self, pick};
use common::{bores, change, voxels, walls};
use wanted::Printing;

fn main() {
    frame::run::<Printing>("printing", 43, own, changed)
}

fn own(c: &mut Files<Printing>, quick: bool) {
    let (shapes, dials, rounds, bodies) = if quick { (1_500, 200, 1, 3_500) } else { (45_000, 12_000, 2, 525_000) };
    own_bodies(c, bodies);
    c.shapes(46, shapes, turned, changed);
    every_limit(c, if quick { 90 } else { 1 });
    own_dials(c, dials);
    many_faults(c, rounds);
}

/// With another job, one at a limit of the part, or another shape.
fn changed(random: &mut Random, mesh: &Mesh) -> Mesh {
    let mut copy = if random.below(6) == 0 { change::changed(random, mesh) } else { mesh.clone() };
    if random.below(3) == 0 {
        copy.job = jobs::draw(random);
    }
    match random.below(4) {
        0 => arrange::arranged(random, &mut copy),
        1 => arrange::ordered(random, &mut copy),
        _ => {}
    }
    if random.below(4) != 0 {
        let what = pick(random, &fit::ALL);
        fit::fitted(random, &mut copy, what);
    }
    copy
}

fn draw(random: &mut Random) -> Mesh {
    let kind = random.below(24);
    let mut mesh = match kind {
        0..=2 => floors::draw(random),
        3 | 4 => floors::flat(random),
        5 | 6 => return over::plate(random),
        7..=9 => return over::small(random),
        10 | 11 => return over::sums(random),
        12..=14 => return over::bored(random),
        15..=18 => return hollows::draw(random),
        19 => voxels::draw(random),
        20 => walls::draw(random),
        21 if random.below(8) == 0 => Mesh::empty(),
        21 => shapes::draw(random),
        _ => {
            let mut mesh = Mesh::empty();
            bores::bore(random, &mut mesh);
            mesh
        }
    };
    mesh.job = jobs::draw(random);
    if random.below(2) == 0 {
        fit::fitted(random, &mut mesh, if kind < 21 { Fit::Wall } else { Fit::Hole });
    }
    mesh
}

/// Closed bodies, and each with what opens it.
fn own_bodies(c: &mut Files<Printing>, count: usize) {
    let mut random = Random(45);
    for number in 0..count {
        let (what, change) = closed::CHANGES[number % closed::CHANGES.len()];
        c.check(&closed::draw(&mut random, change).bytes(), || format!("body {number}, {what}"));
        c.counts.add(what, 1);
    }
}

/// In the pose of a drawn part, or turned.
fn turned(random: &mut Random) -> Mesh {
    let mut mesh = draw(random);
    if random.below(3) == 0 {
        ups::quarter_turns(random, &mut mesh);
    }
    mesh
}

/// For the limits of overhangs, of so many tenths of a degree each: faces that lean by their sine, and by it and the slack, and a few f64 beside.
fn every_limit(c: &mut Files<Printing>, each: usize) {
    let mut random = Random(48);
    for tenths in (0..=900).step_by(each) {
        for slack in [false, true] {
            let what = if slack { "lean of the sine and the slack, on the limit" } else { "lean of the sine, on the limit" };
            let before = c.counts.count(what);
            for steps in [0, 0, -1, 1, pick(&mut random, &[-2, 2, 3])] {
                let mesh = over::at_limit(&mut random, tenths, slack, steps);
                c.check(&mesh.bytes(), || format!("limit {tenths}, {steps} beside"));
            }
            c.counts.add(wanted::TENTHS, u64::from(c.counts.count(what) > before));
        }
    }
}

/// Parts one f64 to each side of a change.
fn own_dials(c: &mut Files<Printing>, count: u64) {
    let mut random = Random(47);
    for number in 0..count {
        let mesh = draw(&mut random);
        dials::draw(&mut random, mesh).check::<_, dials::Found>(c, number);
    }
}

/// About as many as there are rows at the most, and more: the hollows, and that they are not closed.
fn many_faults(c: &mut Files<Printing>, rounds: u64) {
    let mut random = Random(49);
    for _ in 0..rounds {
        for count in [2046, 2047, 2048, 4096] {
            c.check(&hollows::many(&mut random, count).bytes(), || format!("{count} hollows"));
        }
    }
}
