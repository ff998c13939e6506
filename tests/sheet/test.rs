//! The check of bent parts against the patched Rust's (tests/against/compare.rs), with each rule of sheet metal at its limits, counted by the Rust's faults
//! before it merges equal ones. Takes generated files from standard input; with --quick there are fewer of the others.
mod dials;
mod steps;
mod wanted;

use against::arrange;
use against::frame::{self, Files};
use against::sheet::{brackets, jobs, limits};
use common::mesh::Mesh;
use common::random::Random;
use common::{change, shapes, voxels, walls};
use wanted::Sheet;

fn main() {
    frame::run::<Sheet>("sheet", 33, own, changed)
}

fn own(c: &mut Files<Sheet>, quick: bool) {
    let (shapes, dials, rounds) = if quick { (1_000, 200, 1) } else { (40_000, 12_000, 2) };
    c.shapes(36, shapes, draw, changed);
    own_dials(c, dials);
    many_faults(c, rounds);
}

/// With another job, other ids, radii at a limit or another shape.
fn changed(random: &mut Random, mesh: &Mesh) -> Mesh {
    let mut copy = if random.below(6) == 0 { change::changed(random, mesh) } else { mesh.clone() };
    if random.below(2) == 0 {
        copy.job = jobs::draw(random);
    }
    if random.below(2) == 0 {
        limits::fit_rounds(random, &mut copy);
    }
    if random.below(2) == 0 {
        arrange::arranged(random, &mut copy);
    }
    copy
}

fn draw(random: &mut Random) -> Mesh {
    let mut mesh = match random.below(16) {
        0..=5 => brackets::draw(random),
        6 | 7 => brackets::generated(random),
        8 | 9 => brackets::squares(random),
        10 => brackets::twins(random),
        11 => voxels::draw(random),
        12 => walls::draw(random),
        13 if random.below(8) == 0 => Mesh::empty(),
        13 => shapes::draw(random),
        _ => {
            let mut mesh = brackets::draw(random);
            limits::fit_rounds(random, &mut mesh);
            mesh
        }
    };
    arrange::arranged(random, &mut mesh);
    mesh.job = jobs::draw(random);
    mesh
}

/// Parts one f64 to each side of a change.
fn own_dials(c: &mut Files<Sheet>, count: u64) {
    let mut random = Random(37);
    for number in 0..count {
        dials::draw(&mut random).check::<_, dials::Found>(c, number);
    }
}

/// About as many as there are rows at the most, and more.
fn many_faults(c: &mut Files<Sheet>, rounds: u64) {
    for _ in 0..rounds {
        for (insides, tight) in [(341, 0), (341, 1), (341, 2), (341, 3), (400, 400)] {
            c.check(&limits::many_faults(insides, 6, tight).bytes(), || format!("{insides} bends on one outside, {tight} of them tight"));
        }
    }
}
