//! Values at the limits of the sheet metal rules, and close beside.
use crate::generate::draw::Draw;
use crate::generate::job::{Job, Material, SHEET};
use crate::generate::part::{Kind, Part};
use crate::generate::plate::Cell;
use crate::generate::ring::Ring;
use crate::generate::sheet::{Run, Strip};

pub fn sheet(d: &mut Draw, part: &mut Part) -> Job {
    let mut job = Job::draw(d, SHEET);
    // A material that lets the later rules run, of a ratio that is exact.
    let ratio = d.pick(&[500, 1000, 1000, 1500, 2000]);
    if let Some(m) = &mut job.material {
        *m = Material { class: 0, bend_ratio: Some(ratio), ..m.clone() };
    }
    let ratio = if job.material.is_some() { ratio as f64 / 1000.0 } else { 1.0 };
    // Of 100 mm also shares as 0.03 and 0.05 are exact.
    let thick = d.pick(&[1.0, 1.0, 0.5, 2.0, 1.375, 100.0]);
    match d.below(7) {
        0 | 1 => bend(d, part, thick, ratio),
        2 | 3 => pair(d, part, thick),
        4 | 5 => hole(d, part, thick),
        _ => thicknesses(d, part, thick),
    }
    job
}

/// The share of a full turn whose cosine is 0.99.
const SLIGHT: f64 = 0.022_526_706_822_206_064;

/// Radius of ratio times thickness, flange of 4 times, and a bend so slight (cosine 0.99) that
/// its two flanges count as one.
fn bend(d: &mut Draw, part: &mut Part, thick: f64, ratio: f64) {
    let radius = if d.one_in(2) { d.beside(ratio * thick) } else { thick };
    let (first, second) = (d.beside(4.0 * thick), d.pick(&[3.0, 4.0, 20.0]) * thick);
    let slight = SLIGHT + d.pick(&[0.0, 1e-9, -1e-9, 1e-16, -1e-16, 2e-16, -2e-16, 4e-16, -4e-16]);
    let angle = d.pick(&[0.25, 0.25, slight]);
    let runs = [Run::Straight(second), Run::Bend(radius, angle, 3, d.one_in(2)), Run::Straight(first)];
    // A bend's line in two segments: where its axis leans, the length depends on which is first.
    let zs = if d.one_in(2) { vec![0.0, 20.0 * thick] } else { vec![0.0, 8.0 * thick, 20.0 * thick] };
    Strip::new(&runs, thick, thick).build(part, &zs, 2, &mut |_, _, _, _| Cell::Plain);
}

/// Inner and outer side of a bend whose radii, axes or origins differ by just so much, or whose
/// axes both lean (by a sine of 0.1) out of the flanges.
fn pair(d: &mut Draw, part: &mut Part, thick: f64) {
    bend(d, part, thick, 1.0);
    let what = d.below(4);
    let exact = d.pick(&[0.95, 1.05]) * thick;
    let more = if d.one_in(2) { exact } else { d.beside(exact) };
    let shift = if d.one_in(2) { 0.05 * thick } else { d.beside(0.05) * thick };
    let lean = if what == 3 { 0.1 } else { 0.001 };
    let lean = if d.one_in(2) { lean } else { d.steps(lean) };
    let upright = (1.0 - lean * lean).sqrt();
    let inner = radii(part).fold(f64::INFINITY, f64::min);
    for polygon in &mut part.polygons {
        let Kind::Cylinder(origin, axis, r) = polygon.kind else { continue };
        polygon.kind = match what {
            3 => Kind::Cylinder(origin, [0.0, lean, upright], r),
            _ if r == inner => continue,
            0 => Kind::Cylinder(origin, axis, inner + more),
            1 => Kind::Cylinder([origin[0] + shift, origin[1], origin[2]], axis, r),
            _ => Kind::Cylinder(origin, [lean, 0.0, upright], r),
        };
    }
}

fn radii(part: &Part) -> impl Iterator<Item = f64> + '_ {
    part.polygons.iter().filter_map(|p| match p.kind {
        Kind::Cylinder(_, _, r) => Some(r),
        _ => None,
    })
}

/// Holes of the thickness (or 1.2 times) across, and at 2 t from an edge or 2.5 t + r from a bend.
fn hole(d: &mut Draw, part: &mut Part, thick: f64) {
    let across = d.pick(&[1.0, 1.2, 3.0]) * thick;
    let radius = 0.5 * d.beside(across);
    let bent = d.one_in(2);
    let inner = thick;
    let need = if bent { 2.5 * thick + inner } else { 2.0 * thick };
    // The hole's middle lies half a thickness below the edge's segments.
    let slant = d.beside(need + radius);
    let x = (slant * slant - 0.25 * thick * thick).sqrt();
    let long = 4.0 * x + 10.0 * thick;
    let flat = Run::Straight(long);
    let runs = if bent { vec![flat, Run::Bend(inner, 0.25, 2, true), flat] } else { vec![flat] };
    let cornered = !bent && d.one_in(2);
    let centre = match (bent, cornered) {
        (true, _) => (long - x, 0.5 * long),
        (_, true) => (0.6 * x, long - 0.8 * x),
        _ => (x, 0.5 * long),
    };
    let mut ring = Ring::circle(centre, radius, 32);
    if d.one_in(5) {
        // A radius said to reach the edge or past it: the gap is about zero, or below.
        let reach = d.beside(slant) * d.pick(&[1.0, 1.0, 1.0, 1.5]);
        ring.sides.iter_mut().for_each(|s| s.circle = Some((centre, reach)));
    }
    let strip = Strip::new(&runs, thick, thick);
    // The plain half beside it gives the thickness: round the hole the polygons are not convex.
    strip.build(part, &[0.0, long, 2.0 * long], 2, &mut |i, j, _, _| {
        if i == 0 && j == 0 { Cell::Through(ring.clone()) } else { Cell::Plain }
    });
    if cornered {
        // Without the edge face next to the hole the nearest edge is the end of the one beyond.
        part.polygons.retain(|p| p.face != (1, 2) || p.vertices[0][2] > 0.0);
    }
}

/// Two plates of thicknesses 3% apart, of which one has 15% or half of the area; or one so narrow
/// that its middle is 0.6 t from its edge.
fn thicknesses(d: &mut Draw, part: &mut Part, thick: f64) {
    let exact = d.pick(&[1.03, 0.97, 1.03, 1.01]) * thick;
    let other = if d.one_in(2) { d.steps(exact) } else { d.beside(exact) };
    let share = d.pick(&[3.0, 3.0, 10.0, 4.0]);
    let width = if d.one_in(2) { share } else { d.beside(share) } * thick;
    let narrow = d.one_in(4);
    let length = if narrow { d.beside(1.2) } else { 20.0 } * thick;
    part.block(1, [0.0; 3], [(20.0 - share) * thick, length, thick]);
    // Its foot at zero too, beside the other, so that its thickness stays exact.
    let (x, y) = (-50.0 * thick, 0.0);
    part.block(2, [x, y, 0.0], [x + width, y + length, other]);
    if d.one_in(2) {
        part.polygons.rotate_left(6);
    }
}
