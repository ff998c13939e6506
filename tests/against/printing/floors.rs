//! Blocks whose walls are floors to some readings and sides to others, and flat parts.
use common::mesh::{Mesh, Point};
use common::random::Random;
use common::shapes::{block, nudge, pick};

/// Some end in a half of the last decimal that a text has.
const WIDTHS: [f64; 14] = [1.0, 1.0, 2.0, 0.5, 0.2, 0.8, 0.4, 10.0, 0.05, 3.0, 0.125, 0.375, 2.625, 0.005];

/// Less than the slack below a power of two: with the slack an f64 is coarser.
const BELOW: [f64; 5] = [0.9999999993, 0.4999999996, 1.9999999995, 0.2499999998, 0.9999999999];

/// How the sides of a block are named: bottom, top, two across, and two across those.
const NAMES: [[u32; 6]; 6] = [[0, 1, 2, 1, 3, 0], [0, 1, 1, 1, 0, 0], [1, 0, 2, 0, 3, 1], [0, 0, 0, 0, 0, 0], [0, 1, 2, 3, 4, 5], [0, 1, 0, 1, 1, 0]];

/// One, two or three blocks, of which the faces are put together so that the same two lie on both sides of a floor and of a wall: alike thick, nearly or
/// not.
pub fn draw(random: &mut Random) -> Mesh {
    let mut mesh = Mesh::empty();
    let names = pick(random, &NAMES);
    let thick = if random.below(3) == 0 { pick(random, &BELOW) } else { pick(random, &WIDTHS) };
    for k in 0..1 + random.below(3) {
        let low = [0, 1, 2].map(|axis| if axis == 1 { 20.0 * k as f64 } else { 0.0 });
        let mut size = [0; 3].map(|_| nudge(random, thick));
        size[1] = pick(random, &WIDTHS);
        if random.below(3) == 0 {
            size[0] = pick(random, &WIDTHS);
        }
        let start = mesh.polygons.len();
        block(&mut mesh, 1, low, size, false);
        let alike = random.below(2) == 0;
        for (side, polygon) in mesh.polygons[start..].iter_mut().enumerate() {
            polygon.set_face((if alike { 1 } else { k as u32 }, names[side]));
        }
    }
    mesh
}

/// Polygons at one height, or at heights that differ by the sign of a zero: a height of 0.
pub fn flat(random: &mut Random) -> Mesh {
    let mut mesh = Mesh::empty();
    let zero = |random: &mut Random| pick(random, &[0.0, -0.0]);
    let level = pick(random, &[0.0, 0.0, 5.0, -0.1]);
    for k in 0..1 + random.below(4) {
        let x = -3.0 * k as f64;
        let mut points: Vec<Point> =
            [[x, -1.0], [x - 2.0, -1.0], [x - 2.0, -3.0], [x, -3.0]].map(|[x, y]| [x, y, if level == 0.0 { zero(random) } else { level }]).to_vec();
        if random.below(2) == 0 {
            points.reverse();
        }
        mesh.push((1, random.below(3) as u32), points);
    }
    mesh
}
