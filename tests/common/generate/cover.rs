//! Large parts: curved and ribbed covers, and parts at exactly the limits of size.
use crate::generate::draw::Draw;
use crate::generate::part::{Kind, Part};
use crate::generate::plate::{cuts, Cell};
use crate::generate::sheet::{Run, Strip};
use crate::generate::space::turn;
use crate::generate::step::columns;

pub const MOST_VERTICES: usize = 16_384;
pub const MOST_POLYGONS: usize = 4_096;
pub const MOST_FACES: usize = 1_024;

/// 500 to 4,000 polygons.
pub fn covers(d: &mut Draw, part: &mut Part) {
    if d.one_in(2) { arch(d, part) } else { ribbed(d, part) }
}

fn arch(d: &mut Draw, part: &mut Part) {
    let thick = d.size(0.5, 3.0);
    let strips = d.from(1, 8);
    let facets = d.from(500, 3900) / (2 * strips + 2);
    let flange = Run::Straight(d.size(2.0, 20.0));
    let bend = Run::Bend(d.size(10.0, 100.0), d.pick(&[0.1, 0.25, 0.5]), facets, true);
    let strip = Strip::new(&[flange, bend, flange], thick, thick);
    let zs = cuts(&vec![d.size(4.0, 30.0); strips]);
    strip.build(part, &zs, 2, &mut |_, _, _, _| Cell::Plain);
}

fn ribbed(d: &mut Draw, part: &mut Part) {
    let strips = d.from(1, 6);
    let count = d.from(500, 3900) / (3 * strips + 2);
    let (rib, gap) = (d.size(0.2, 2.0), d.size(0.5, 5.0));
    let (low, high) = (d.size(0.3, 3.0), d.size(3.1, 12.0));
    let pick = |i: usize, a: f64, b: f64| if i % 2 == 0 { a } else { b };
    let widths: Vec<f64> = (0..count).map(|i| pick(i, gap, rib)).collect();
    let heights: Vec<f64> = (0..count).map(|i| pick(i, low, high)).collect();
    columns(part, &cuts(&widths), &cuts(&vec![d.size(2.0, 20.0); strips]), &heights);
    // Of many columns each has faces of its own: kept within the limit of faces.
    for polygon in &mut part.polygons {
        polygon.face.1 %= 300;
    }
}

/// Exactly at a limit: all vertices and polygons, few large polygons, many triangles, all faces.
pub fn full(d: &mut Draw, part: &mut Part) {
    match d.below(4) {
        0 => waves(part, 64, 64, d.from(1, MOST_FACES)),
        1 => discs(part, MOST_VERTICES / 64, 64, MOST_FACES),
        2 => discs(part, MOST_POLYGONS, 3, d.from(1, MOST_FACES)),
        _ => discs(part, MOST_FACES, d.from(3, 8), MOST_FACES),
    }
}

/// One face more than allowed, or many more.
pub fn many_faces(d: &mut Draw, part: &mut Part) {
    let count = MOST_FACES + d.pick(&[1, 1, 1, 2, 100]);
    discs(part, count, 3, count);
}

/// A wavy sheet of quads, all of one thickness less one.
fn waves(part: &mut Part, nx: usize, ny: usize, faces: usize) {
    let at = |i: usize, j: usize| [i as f64, j as f64, 2.0 * turn(i as f64 / 16.0).1];
    for i in 0..nx {
        for j in 0..ny {
            let quad = vec![at(i, j), at(i + 1, j), at(i + 1, j + 1), at(i, j + 1)];
            let number = (i * ny + j) % faces;
            part.push((1, number as u32), Kind::Plane, quad);
        }
    }
}

/// Discs above one another, in stacks of 64.
fn discs(part: &mut Part, count: usize, sides: usize, faces: usize) {
    for k in 0..count {
        let (x, z) = ((k / 64) as f64 * 3.0, (k % 64) as f64 * 0.5);
        let corner = |i: usize| {
            let (c, s) = turn(i as f64 / sides as f64);
            [x + c, s, z]
        };
        let mut vertices: Vec<_> = (0..sides).map(corner).collect();
        if k % 2 == 0 {
            vertices.reverse();
        }
        part.push((7, (k % faces) as u32), Kind::Plane, vertices);
    }
}
