//! Columns of different heights (steps, slots, ribs), and inside corners under a roof.
use crate::generate::draw::Draw;
use crate::generate::part::{Kind, Part};
use crate::generate::plate::cuts;

/// Columns between the cuts xs, from 0 up to their heights, cut along y as well. A column's top
/// is one face, and so is a wall between two columns, however often y is cut.
pub fn columns(part: &mut Part, xs: &[f64], ys: &[f64], heights: &[f64]) {
    let last = heights.len() - 1;
    for y in ys.windows(2) {
        for (i, h) in heights.iter().enumerate() {
            let (a, b) = (xs[i], xs[i + 1]);
            part.push((1, 0), Kind::Plane, rectangle([a, y[0]], [b, y[1]], 0.0, false));
            part.push((1, 10 + i as u32), Kind::Plane, rectangle([a, y[0]], [b, y[1]], *h, true));
        }
        for k in 0..=heights.len() {
            let left = if k == 0 { 0.0 } else { heights[k - 1] };
            let right = if k > last { 0.0 } else { heights[k] };
            if left != right {
                part.push((2, k as u32), Kind::Plane, wall(xs[k], y, left, right));
            }
        }
    }
    for i in 0..heights.len() {
        let front = outline(xs, heights, i);
        let at = |y: f64| front.iter().map(|p| [p.0, y, p.1]).collect::<Vec<_>>();
        let mut back = at(ys[ys.len() - 1]);
        back.reverse();
        part.push((1, 1), Kind::Plane, at(ys[0]));
        part.push((1, 2), Kind::Plane, back);
    }
}

fn rectangle(a: [f64; 2], b: [f64; 2], z: f64, up: bool) -> Vec<[f64; 3]> {
    let mut out = vec![[a[0], a[1], z], [b[0], a[1], z], [b[0], b[1], z], [a[0], b[1], z]];
    if !up {
        out.reverse();
    }
    out
}

/// The wall between two heights; it faces the lower side.
fn wall(x: f64, y: &[f64], left: f64, right: f64) -> Vec<[f64; 3]> {
    let (lo, hi) = (left.min(right), left.max(right));
    let mut out = vec![[x, y[0], lo], [x, y[1], lo], [x, y[1], hi], [x, y[0], hi]];
    if left < right {
        out.reverse();
    }
    out
}

/// A column seen from the front (x, z), with a vertex wherever a lower neighbour ends.
fn outline(xs: &[f64], heights: &[f64], i: usize) -> Vec<(f64, f64)> {
    let (a, b, h) = (xs[i], xs[i + 1], heights[i]);
    let mut out = vec![(a, 0.0), (b, 0.0)];
    if i + 1 < heights.len() && heights[i + 1] < h {
        out.push((b, heights[i + 1]));
    }
    out.push((b, h));
    out.push((a, h));
    if i > 0 && heights[i - 1] < h {
        out.push((a, heights[i - 1]));
    }
    out
}

/// A slot or a step whose inner edges are in several segments, some of them under a roof: the
/// last midpoint decides whether a tool can reach the corner.
pub fn corners(d: &mut Draw, part: &mut Part) {
    let floor = d.size(1.0, 10.0);
    let depth = d.size(0.5, 20.0);
    let slot = d.size(1.0, 20.0);
    let strips = d.from(1, 5);
    let ys = cuts(&(0..strips).map(|_| d.size(1.0, 12.0)).collect::<Vec<_>>());
    let side = d.size(1.0, 10.0);
    let heights = match d.below(4) {
        0 => vec![floor + depth, floor],
        1 => vec![floor + depth, floor, floor + depth, floor, floor + depth],
        _ => vec![floor + depth, floor, floor + depth],
    };
    let widths: Vec<f64> = (0..heights.len()).map(|i| if i % 2 == 1 { slot } else { side }).collect();
    let xs = cuts(&widths);
    columns(part, &xs, &ys, &heights);
    for j in 0..strips {
        if d.one_in(2) {
            let above = floor + depth + d.pick(&[0.0, 0.5, 2.0]);
            roof(d, part, 10 + j as u32, [xs[0], ys[j]], [xs[xs.len() - 1], ys[j + 1]], above);
        }
    }
    if heights.len() == 2 && d.one_in(2) {
        // Something that faces the step's wall, over part of its length.
        let (x, y0, y1) = (xs[2] + 1.0, ys[0], ys[d.from(1, strips)]);
        part.block(20, [x, y0, 0.0], [x + 1.0, y1, floor + depth]);
    }
    if d.one_in(3) {
        split_faces(part);
    }
}

/// A slab, or only the polygon that faces down.
fn roof(d: &mut Draw, part: &mut Part, feature: u32, a: [f64; 2], b: [f64; 2], z: f64) {
    if d.one_in(2) {
        part.block(feature, [a[0], a[1], z], [b[0], b[1], z + d.size(0.2, 5.0)]);
    } else {
        part.push((feature, 0), Kind::Plane, rectangle(a, b, z, false));
    }
}

/// Each polygon a face of its own.
fn split_faces(part: &mut Part) {
    for (i, polygon) in part.polygons.iter_mut().enumerate() {
        polygon.face = (polygon.face.0, i as u32);
    }
}

/// Thin ribs and floors of few layers.
pub fn ribs(d: &mut Draw, part: &mut Part) {
    let count = d.from(1, 4);
    let floor = if d.one_in(2) { thin(d) } else { d.size(0.5, 5.0) };
    let high = floor + d.size(0.5, 30.0);
    let rib = thin(d);
    let gap = d.size(1.0, 10.0);
    let alike = d.one_in(2);
    let (mut widths, mut heights) = (vec![gap], vec![floor]);
    for _ in 0..count {
        widths.push(if alike { rib } else { thin(d) });
        heights.push(if alike { high } else { floor + d.size(0.5, 30.0) });
        widths.push(gap);
        heights.push(floor);
    }
    let lengths: Vec<f64> = (0..d.from(1, 3)).map(|_| d.size(2.0, 30.0)).collect();
    columns(part, &cuts(&widths), &cuts(&lengths), &heights);
}

/// A thickness about the limits of walls, nozzles and layers.
pub fn thin(d: &mut Draw) -> f64 {
    match d.below(3) {
        0 => d.pick(&[0.04, 0.05, 0.08, 0.1, 0.15, 0.2, 0.3, 0.4, 0.5, 0.8]),
        1 => d.between(0.01, 1.5),
        _ => d.size(0.02, 3.0),
    }
}
