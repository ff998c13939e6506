//! Values at the limits of the machining rules, and close beside.
use crate::generate::draw::Draw;
use crate::generate::job::{Job, CNC};
use crate::generate::limits_rays;
use crate::generate::part::Part;
use crate::generate::plate::{plate, slab, Cell};
use crate::generate::ring::Ring;

/// A part at a limit and the job that has it.
pub fn machining(d: &mut Draw, part: &mut Part) -> Job {
    let job = Job::draw(d, CNC);
    match d.below(14) {
        0..=2 => wall(d, part, &job),
        3 | 4 => bore(d, part),
        5 => corner_radius(d, part),
        6 => limits_rays::gap_of_bore(d, part),
        7 => limits_rays::dimple(d, part),
        8 => limits_rays::groove(d, part),
        9 => limits_rays::lip(d, part),
        10 => limits_rays::ties(d, part),
        11 => limits_rays::grazing(d, part),
        12 => limits_rays::keys(d, part),
        _ => limits_rays::far(d, part),
    }
    job
}

/// Walls of the minimum and of half of it, which is 0.8 without a material; and of eighths, which
/// lie in the middle between two texts.
fn wall(d: &mut Draw, part: &mut Part, job: &Job) {
    let material = job.material.as_ref().map_or(0.0, |m| m.min_wall);
    let least = if material > 0.0 && material < 1000.0 { material } else { 0.8 };
    let exact = d.pick(&[least, 0.5 * least, 0.5 * least, 0.125, 0.375, 0.625]);
    let thick = d.beside(exact);
    let z = d.pick(&[0.0, 0.0, 1.0, -0.5 * thick]);
    part.block(1, [0.0, 0.0, z], [20.0, 20.0, z + thick]);
}

/// Diameter 1, depth of 4 and 10 diameters, and depths whose text is in the middle of two.
fn bore(d: &mut Draw, part: &mut Part) {
    let radius = if d.one_in(3) { d.beside(0.5) } else { d.pick(&[0.5, 1.0, 1.25]) };
    let ratio = d.pick(&[4.0, 4.0, 10.0, 10.0, 4.25, 4.75, 10.25, 1.0]);
    let depth = d.beside(ratio * 2.0 * radius);
    let sides = d.pick(&[31, 32, 32, 32]);
    let ring = Ring::circle((5.0, 5.0), radius, sides);
    let (thick, cell) = if d.one_in(2) {
        (depth, Cell::Through(ring))
    } else {
        (depth + 2.0, Cell::Blind(ring, depth))
    };
    // The bore's floor, or its foot, at zero: the depth stays exact.
    let slab = slab(1, depth - thick, depth, (2, 64));
    plate(part, &slab, &[0.0, 10.0], &[0.0, 10.0], &[cell]);
}

/// Radius 0.5, depth of 4 diameters; sharp ones 3 mm deep, where the advised radius changes.
fn corner_radius(d: &mut Draw, part: &mut Part) {
    let radius = if d.one_in(2) { d.beside(0.5) } else { 1.0 };
    let depth = if d.one_in(2) { d.beside(8.0 * radius) } else { d.beside(3.0) };
    let inner = [2.0, 2.0, 12.0, 9.0];
    let ring = if d.one_in(3) { Ring::rectangle(inner) } else { Ring::rounded(inner, radius, 3) };
    let slab = slab(1, -3.0, depth, (64, 64));
    plate(part, &slab, &[0.0, 14.0], &[0.0, 11.0], &[Cell::Blind(ring, depth)]);
}
