//! The check of cut parts against the patched Rust's (tests/against/compare.rs), with each rule of machining at its limits, counted by the Rust's faults
//! before it merges equal ones. Takes generated files from standard input; with --quick there are fewer of the others.
mod facets;
mod wanted;

use against::frame::{self, Files};
use against::machining::limits;
use common::mesh::Mesh;
use common::random::Random;
use common::{bores, change, ids, shapes, voxels, walls};
use wanted::Machining;

fn main() {
    frame::run::<Machining>("machining", 23, own, changed)
}

fn own(c: &mut Files<Machining>, quick: bool) {
    let (shapes, rounds) = if quick { (3_000, 1) } else { (70_000, 2) };
    c.shapes(26, shapes, draw, changed);
    many_facets(c, rounds);
    many_faults(c, rounds);
}

/// With another job, other ids, a value at a limit or another shape.
fn changed(random: &mut Random, mesh: &Mesh) -> Mesh {
    let mut copy = if random.below(4) == 0 { change::changed(random, mesh) } else { mesh.clone() };
    match random.below(4) {
        0 => copy.job = limits::job(random),
        1 => limits::fit_wall(random, &mut copy),
        2 => limits::fit_rounds(random, &mut copy),
        _ => {}
    }
    if random.below(2) == 0 {
        ids::rename(random, &mut copy);
    }
    copy
}

fn draw(random: &mut Random) -> Mesh {
    let mut mesh = match random.below(16) {
        0..=7 => voxels::draw(random),
        8 => shapes::draw(random),
        9 | 10 => limits::corner(random),
        11 if random.below(4) == 0 => Mesh::empty(),
        11..=13 => {
            let mut mesh = Mesh::empty();
            bores::bore(random, &mut mesh);
            mesh
        }
        _ => walls::draw(random),
    };
    mesh.job = limits::job(random);
    mesh
}

/// As they are, and with a radius at a limit, where it shows whether they are holes.
fn many_facets(c: &mut Files<Machining>, rounds: u64) {
    let mut random = Random(27);
    for (name, mut mesh) in (0..rounds).flat_map(|_| facets::all()) {
        c.check(&mesh.bytes(), || name.clone());
        limits::fit_rounds(&mut random, &mut mesh);
        c.check(&mesh.bytes(), || format!("{name}, another radius"));
    }
}

/// About as many as there are rows at the most, and more.
fn many_faults(c: &mut Files<Machining>, rounds: u64) {
    for _ in 0..rounds {
        for (pits, not_plane) in [(682, 0), (683, 1), (684, 2), (683, 0), (1024, 0)] {
            c.check(&voxels::pits(pits, not_plane).bytes(), || format!("{pits} pits"));
        }
    }
}
