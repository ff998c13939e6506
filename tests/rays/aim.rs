//! Rays for a body: at random, and at what is hard: vertices, sides and the tolerance beside them, along faces, sides and the bounds of boxes, from a face
//! itself, through a box beside its polygon, with zeros of both signs, and numbers that no caller should pass.
use common::polygon::{centroid, own_box, plane};
use common::field::ODD;
use common::mesh::{Mesh, Point, Polygon};
use common::random::Random;
use common::shapes::{nudge, pick};
use common::vector::{cross, length, minus, plus, times};

type Ray = [Point; 2];

/// What a ray is aimed at.
pub const KINDS: [&str; 15] = [
    "anywhere",
    "at a vertex",
    "at a side",
    "beside a side",
    "along axes",
    "along a side",
    "nearly along a face",
    "from a face",
    "from a vertex",
    "of any length",
    "of odd numbers",
    "along a face",
    "along a bound of a box",
    "at a corner of a box",
    "through a box beside its polygon",
];

/// So many rays of six numbers: origin, direction; and the number of each one's kind.
pub fn rays(random: &mut Random, mesh: &Mesh, count: usize) -> (Vec<f64>, Vec<usize>) {
    let (low, high) = bounds(mesh);
    let (kinds, rays): (Vec<usize>, Vec<Ray>) = (0..count).map(|_| draw(random, mesh, low, high)).unzip();
    (rays.concat().concat(), kinds)
}

fn draw(random: &mut Random, mesh: &Mesh, low: Point, high: Point) -> (usize, Ray) {
    let from = [0, 1, 2].map(|k| low[k] - 1.0 + unit(random) * (high[k] - low[k] + 2.0));
    if mesh.polygons.is_empty() {
        return (0, [from, any(random)]);
    }
    let polygon = &mesh.polygons[random.below(mesh.polygons.len() as u64) as usize];
    let points = &polygon.points;
    let k = random.below(points.len() as u64) as usize;
    let (a, b) = (points[k], points[(k + 1) % points.len()]);
    match random.below(24) {
        0 | 1 => (0, [from, any(random)]),
        2 => (1, [from, minus(a, from)]),
        3 => (2, [from, minus(between(a, b, pick(random, &[0.5, 0.25, 0.3])), from)]),
        4 | 5 => (3, [from, minus(beside(random, polygon, a, b), from)]),
        6 | 7 => (4, straight(random, polygon, a)),
        8 => (5, [between(a, b, pick(random, &[-1.0, 0.0, 0.5, 2.0])), minus(b, a)]),
        9 => (6, nearly_along(random, polygon, a, b)),
        10 | 11 => (7, from_face(random, polygon)),
        12 => (8, [a, any(random)]),
        13 => (8, [a, minus(centroid(points), a)]),
        14 => {
            let by = pick(random, &[1e-12, 1e-11, 1e-6, 1e6, 1e12]);
            (9, [from, minus(centroid(points), from).map(|c| c * by)])
        }
        15 => (10, odd(random, from)),
        16 | 17 => (11, along_face(random, polygon)),
        18 | 19 => (12, along_bound(random, polygon, from)),
        20 => (13, at_corner(random, polygon, from)),
        _ => (14, through_box(random, polygon, a, b)),
    }
}

fn bounds(mesh: &Mesh) -> (Point, Point) {
    let over = |start: f64, f: fn(f64, f64) -> f64| [0, 1, 2].map(|k| mesh.points().fold(start, |c, p| f(c, p[k])));
    if mesh.polygons.is_empty() {
        return ([0.0; 3], [0.0; 3]);
    }
    (over(f64::MAX, f64::min), over(f64::MIN, f64::max))
}

fn unit(random: &mut Random) -> f64 {
    (random.next() >> 11) as f64 / (1u64 << 53) as f64
}

fn any(random: &mut Random) -> Point {
    [0; 3].map(|_| unit(random) * 2.0 - 1.0)
}

fn between(a: Point, b: Point, share: f64) -> Point {
    [0, 1, 2].map(|k| a[k] + (b[k] - a[k]) * share)
}

fn moved(p: Point, by: Point, far: f64) -> Point {
    plus(p, times(by, far))
}

fn normal(polygon: &Polygon) -> Point {
    plane(polygon).0
}

/// A point in the polygon's plane about as far outside a side as the tolerance of the side test lets pass, which is 1e-9 over the side's length.
fn beside(random: &mut Random, polygon: &Polygon, a: Point, b: Point) -> Point {
    let outward = cross(minus(b, a), normal(polygon));
    let square = length(outward) * length(outward);
    let off = pick(random, &[1e-9, 0.9e-9, 1.1e-9, 0.99e-9, 1.01e-9, -1e-9, 2e-9, 1e-10, 1e-6]) / square;
    moved(between(a, b, unit(random)), outward, off)
}

/// Along one axis or two, with zeros of both signs, through a vertex or the middle.
fn straight(random: &mut Random, polygon: &Polygon, a: Point) -> Ray {
    let mut dir = [0; 3].map(|_| pick(random, &[0.0, -0.0]));
    (0..1 + random.below(2)).for_each(|_| dir[random.below(3) as usize] = pick(random, &[1.0, -1.0, 0.5]));
    let target = if random.below(2) == 0 { a } else { centroid(&polygon.points) };
    let back = pick(random, &[0.0, 1.0, 5.0, 100.0, -1.0, 1e-9, 1e-6]);
    [moved(target, dir, -back), dir]
}

/// Along a side and a little out of the plane: about where a ray counts as parallel.
fn nearly_along(random: &mut Random, polygon: &Polygon, a: Point, b: Point) -> Ray {
    let normal = normal(polygon);
    let out = pick(random, &[1e-12, 0.9e-12, 1.1e-12, 2e-12, 1e-11, 1e-9]);
    let start = moved(between(a, b, unit(random)), normal, -pick(random, &[0.0, 1e-12, 1e-9]));
    [start, moved(minus(b, a), normal, out)]
}

/// In the polygon's plane, from beside it, from a vertex or from its middle.
fn along_face(random: &mut Random, polygon: &Polygon) -> Ray {
    let points = &polygon.points;
    let mut corner = || points[random.below(points.len() as u64) as usize];
    let (a, b, c) = (corner(), corner(), corner());
    let dir = plus(times(minus(b, a), unit(random)), minus(c, a));
    let start = pick(random, &[a, centroid(points), between(a, b, 0.5)]);
    [moved(start, dir, pick(random, &[0.0, 0.0, -1.0, -3.0, 0.5])), dir]
}

/// With no way along an axis, from a bound of the polygon's box on it or from one f64 beside, to a point of the polygon.
fn along_bound(random: &mut Random, polygon: &Polygon, from: Point) -> Ray {
    let (bounds, axis) = (own_box(&polygon.points), random.below(3) as usize);
    let k = random.below(polygon.points.len() as u64) as usize;
    let target = pick(random, &[polygon.points[k], centroid(&polygon.points)]);
    let near = [0; 3].map(|_| unit(random) - 0.5);
    let mut origin = pick(random, &[from, plus(target, near), plus(target, times(near, 1e-3))]);
    let bound = pick(random, &bounds)[axis];
    origin[axis] = nudge(random, bound);
    let mut dir = minus(target, origin);
    dir[axis] = pick(random, &[0.0, -0.0]);
    if random.below(3) == 0 {
        dir[(axis + 1) % 3] = pick(random, &[0.0, -0.0]);
        origin[(axis + 1) % 3] = target[(axis + 1) % 3];
    }
    [origin, dir]
}

/// A corner of the polygon's box, or through it from outside or from on a bound.
fn at_corner(random: &mut Random, polygon: &Polygon, from: Point) -> Ray {
    let bounds = own_box(&polygon.points);
    let corner = [0, 1, 2].map(|k| pick(random, &bounds)[k]);
    let other = [0, 1, 2].map(|k| pick(random, &bounds)[k]);
    match random.below(3) {
        0 => [from, minus(corner, from)],
        1 => [corner, minus(centroid(&polygon.points), corner)],
        _ => [corner, minus(other, corner)],
    }
}

/// Nearly along the polygon, meeting its plane beside a side, about as far as the tolerance of the side test reaches, before its box or past it.
fn through_box(random: &mut Random, polygon: &Polygon, a: Point, b: Point) -> Ray {
    let (normal, side) = (normal(polygon), minus(b, a));
    let (long, outward) = (length(side), cross(side, normal));
    let off = pick(random, &[0.1, 0.3, 0.6, 0.9, 0.99, 1.01]) * 1e-9 / long;
    let met = moved(between(a, b, pick(random, &[0.5, 0.25, 0.1])), outward, off / long);
    let slope = pick(random, &[1e-4, 1e-3, -1e-3, 1e-2, -1e-2, 0.1, 0.5, -0.5]);
    let inward = moved(times(outward, pick(random, &[-1.0, -1.0, 1.0]) / long), normal, slope);
    [moved(met, inward, -pick(random, &[0.0, 1e-6, 1e-4, 0.5 * off, 1.0, 1e-3])), inward]
}

/// From the centroid, inward or outward, from on the face or a little beside it.
fn from_face(random: &mut Random, polygon: &Polygon) -> Ray {
    let normal = normal(polygon);
    let start = moved(centroid(&polygon.points), normal, pick(random, &[0.0, 0.0, 1e-6, -1e-6, 1e-4, -1e-4, 1e-12, -1e-12]));
    [start.map(|c| nudge(random, c)), normal.map(|c| c * pick(random, &[-1.0, 1.0]))]
}

/// Infinities, NaN, the largest and the least in some places.
fn odd(random: &mut Random, from: Point) -> Ray {
    let mut ray = [from, any(random)];
    for _ in 0..1 + random.below(3) {
        ray[random.below(2) as usize][random.below(3) as usize] = f64::from_bits(pick(random, &ODD));
    }
    ray
}
