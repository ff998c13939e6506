//! Parts of two polygons, far apart or near, of which the ray of the first strikes the second at any angle: what no common part has.
use common::mesh::{Mesh, Point};
use common::random::Random;
use common::shapes::pick;
use common::vector::{cross, length, minus, plus, times};

/// Now and then out of the range of coordinates, and then refused.
pub fn draw(random: &mut Random) -> Mesh {
    let normal = direction(random);
    let start = [0; 3].map(|_| pick(random, &[10.0, 1000.0, 9000.0]) * signed(random));
    let far = 10f64.powf(-3.0 + 7.0 * share(random));
    let struck = minus(start, times(normal, far));
    let mut mesh = Mesh::empty();
    mesh.push((1, 0), around(start, normal, pick(random, &[0.01, 1.0, 100.0]), 3));
    let size = pick(random, &[0.1, 10.0, 1000.0]);
    let slanted = slanted(random, normal);
    mesh.push((1, 1), around(struck, slanted, size, 3 + random.below(6) as usize));
    mesh
}

/// A unit vector whose dot product with this one is of any size from 0.01 to 1, most often small and below 0.
fn slanted(random: &mut Random, normal: Point) -> Point {
    let along = 10f64.powf(-2.0 * share(random)) * pick(random, &[-1.0, -1.0, -1.0, 1.0]);
    let beside = across(random, normal);
    plus(times(normal, along), times(beside, (1.0 - along * along).max(0.0).sqrt()))
}

/// A regular polygon of so many corners about a point, facing this way.
fn around(middle: Point, normal: Point, size: f64, corners: usize) -> Vec<Point> {
    let x = unit(cross(normal, if normal[0].abs() < 0.5 { [1.0, 0.0, 0.0] } else { [0.0, 1.0, 0.0] }));
    let y = cross(normal, x);
    let corner = |k: usize| {
        let angle = std::f64::consts::TAU * k as f64 / corners as f64;
        plus(middle, plus(times(x, size * angle.cos()), times(y, size * angle.sin())))
    };
    (0..corners).map(corner).collect()
}

fn across(random: &mut Random, normal: Point) -> Point {
    let side = cross(normal, direction(random));
    if length(side) < 1e-3 {
        return across(random, normal);
    }
    unit(side)
}

fn direction(random: &mut Random) -> Point {
    let v = [0; 3].map(|_| signed(random));
    if length(v) < 0.1 {
        return direction(random);
    }
    unit(v)
}

fn unit(v: Point) -> Point {
    times(v, 1.0 / length(v))
}

/// From 0 to 1.
fn share(random: &mut Random) -> f64 {
    (random.next() >> 11) as f64 / (1u64 << 53) as f64
}

fn signed(random: &mut Random) -> f64 {
    2.0 * share(random) - 1.0
}
