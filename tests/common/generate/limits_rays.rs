//! Values at the limits of the geometry that all rules share (rays, sides, keys, directions), and
//! close beside. Most are drawn about zero with unit sides, so that the value tested is exact.
use crate::generate::draw::Draw;
use crate::generate::part::{Kind, Part};
use crate::generate::ring::{on_circle, Ring};
use crate::generate::space::{turn, V, WORLD, Z};
use crate::generate::step::columns;

/// A bore with one side that covers about 0.2 rad, the most that a hole may leave open; directions
/// are rounded to 2^-20, so the steps are of that size and finer.
pub fn gap_of_bore(d: &mut Draw, part: &mut Part) {
    let step = d.pick(&[2.5e-7, 1e-7, 2e-8]);
    let gap = (0.2 + step * (d.from(0, 10) as f64 - 5.0)) / std::f64::consts::TAU;
    let sides = 36;
    let mut ring = Ring::circle((5.0, 5.0), 2.0, sides);
    let begin = d.unit();
    for i in 0..sides {
        let share = begin + gap + (1.0 - gap) * i as f64 / (sides - 1) as f64;
        ring.points[i] = on_circle((5.0, 5.0), 2.0, share);
    }
    ring.wall(part, &WORLD, 0.0, d.size(1.0, 50.0), 1, true);
    part.block(2, [0.0, 0.0, -5.0], [10.0, 10.0, -3.0]);
}

/// A conical dimple called a cylinder, its tip about 1e-6 off the axis; nearer it gives no direction. The
/// rim leaves a gap about y: only the direction of a tip that is far enough fills it.
pub fn dimple(d: &mut Draw, part: &mut Part) {
    let off = d.pick(&[0.0, 1e-6, 1e-6, 1e-6]);
    let tip = [0.0, if off > 0.0 && d.one_in(2) { d.steps(off) } else { off }, 0.0];
    let sides = d.pick(&[8, 32, 40, 40, 40]);
    let kind = Kind::Cylinder([0.0; 3], Z, d.pick(&[0.4, 0.5, 2.0]));
    let rim = |k: usize| {
        let (c, s) = turn(0.25 + k as f64 / sides as f64);
        [c, s, 1.0]
    };
    let left_out = d.pick(&[0, 1, 1, 1, 2]);
    for i in left_out..sides - left_out {
        part.push((1, 0), kind, vec![tip, rim(i), rim(i + 1)]);
    }
}

/// A rectangle at one height, seen from above.
fn level(a: [f64; 2], b: [f64; 2], z: f64) -> Vec<V> {
    vec![[a[0], a[1], z], [b[0], a[1], z], [b[0], b[1], z], [a[0], b[1], z]]
}

fn turned_over(mut vertices: Vec<V>) -> Vec<V> {
    vertices.reverse();
    vertices
}

/// A floor with a slight slope at its end, under a roof: flat (cosine 0.99 and more) is no corner.
pub fn groove(d: &mut Draw, part: &mut Part) {
    let c: f64 = if d.one_in(4) { d.beside(0.99) } else { d.steps(0.99) };
    let s = (1.0 - c * c).sqrt();
    part.push((1, 0), Kind::Plane, level([-10.0, 0.0], [0.0, 1.0], 0.0));
    let slope = vec![[0.0; 3], [c, 0.0, s], [c, 1.0, s], [0.0, 1.0, 0.0]];
    part.push((1, 1), Kind::Plane, slope);
    part.block(2, [-20.0, -1.0, 2.0], [20.0, 2.0, 3.0]);
}

/// A lip so low beside a floor that its middle is about 1e-9 above it, in a closed box.
pub fn lip(d: &mut Draw, part: &mut Part) {
    let z = if d.one_in(2) { 2e-9 } else { d.steps(2e-9) };
    part.push((1, 0), Kind::Plane, level([0.0, 0.0], [5.0, 1.0], 0.0));
    // Its upper vertices lie inward, so that no two of its sides have the same key.
    part.push((1, 1), Kind::Plane, vec![[0.0; 3], [0.0, 1.0, 0.0], [0.0, 0.75, z], [0.0, 0.25, z]]);
    part.push((1, 2), Kind::Plane, turned_over(level([-5.0, -5.0], [5.0, 5.0], 4.0)));
    part.block(2, [5.5, -5.0, -1.0], [6.0, 5.0, 3.0]);
}

/// Rays that strike the side between two polygons, or 1e-9 beside it, polygons on polygons, and
/// a roof so steep that the cosine is about -0.5, where a reading no longer counts.
pub fn ties(d: &mut Draw, part: &mut Part) {
    let thick = d.pick(&[0.25, 0.5, 0.7]);
    // So narrow that no ray from above comes back: what its own ray strikes decides.
    part.push((1, 0), Kind::Plane, turned_over(level([-1.0, 0.0], [1.0, 1.0], 0.0)));
    if d.one_in(3) {
        let slope = d.steps(3f64.sqrt());
        let (lo, hi) = (thick - slope, thick + slope);
        let roof = vec![[-1.0, 0.0, lo], [1.0, 0.0, hi], [1.0, 1.0, hi], [-1.0, 1.0, lo]];
        part.push((1, 1), Kind::Plane, roof);
        return;
    }
    let cut = d.pick(&[0.0, 1e-9, 1e-9, -1e-9, 2e-9]);
    let cut = if d.one_in(2) { cut } else { d.steps(cut) };
    part.push((1, 2), Kind::Plane, level([cut, 0.0], [10.0, 1.0], thick));
    part.push((1, 1), Kind::Plane, level([-10.0, 0.0], [if d.one_in(2) { cut } else { -1.0 }, 1.0], thick));
    if d.one_in(2) {
        let z = d.beside(thick);
        part.push((1, 3), Kind::Plane, level([d.pick(&[-10.0, 5.0]), 0.0], [10.0, 1.0], z));
    }
}

/// A ray along a polygon that leans by 1e-12, below which it cannot be struck.
pub fn grazing(d: &mut Draw, part: &mut Part) {
    let lean = if d.one_in(2) { 1e-12 } else { d.steps(1e-12) };
    part.block(1, [-0.1, 0.0, -0.5], [0.3, 1.0, 0.5]);
    let quad = vec![[0.0; 3], [1.0, 0.0, -lean], [1.0, 1.0, -lean], [0.0, 1.0, 0.0]];
    part.push((2, 0), Kind::Plane, quad);
}

/// Coordinates in the middle between two keys of 1e4 or 1e5, each vertex a rounding to some side.
pub fn keys(d: &mut Draw, part: &mut Part) {
    let half = d.pick(&[0.5e-4, 0.5e-4, 0.5e-5, 1.5e-4]);
    let heights = [half + 6.0, half + 2.0, half + 6.0];
    columns(part, &[half, 3.0 + half, 7.0 + half, 10.0 + half], &[half, 5.0, 8.0], &heights);
    for polygon in &mut part.polygons {
        for c in polygon.vertices.iter_mut().flatten() {
            *c = match d.below(12) {
                0 => c.next_up(),
                1 => c.next_down(),
                _ => *c,
            };
        }
    }
    if d.one_in(2) {
        // Halves go away from zero: below zero to the other side.
        for polygon in &mut part.polygons {
            polygon.vertices.iter_mut().for_each(|v| v[0] = -v[0]);
            polygon.vertices.reverse();
        }
    }
}

/// At the ends of the coordinates' range.
pub fn far(d: &mut Draw, part: &mut Part) {
    let at = d.pick(&[1e4, 1e4f64.next_down()]);
    let thick = d.pick(&[0.25, 0.5, 1.0]);
    match d.below(3) {
        0 => part.block(1, [at - 20.0, at - 20.0, at - thick], [at, at, at]),
        1 => part.block(1, [-at, -at, -at], [20.0 - at, 20.0 - at, thick - at]),
        _ => part.block(1, [-at, -at, 0.0], [at, at, thick]),
    }
}
