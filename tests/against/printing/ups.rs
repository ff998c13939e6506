//! Build directions: along an axis, any, longer and shorter than 1; and those at a given cosine to a vector.
use crate::printing::jobs;
use common::field::{real, set_real, word};
use common::mesh::{Mesh, Point};
use common::random::Random;
use common::shapes::{any_point, nudge, pick};
use oracle::math::{v3, Vec3};

/// The lengths that are allowed are 0.5 to 2.
const LENGTHS: [f64; 10] = [1.0, 1.0, 1.0, 0.5, 2.0, 0.75, 1.3, 1.999, 0.501, 0.9999999999999999];

pub fn vector(p: Point) -> Vec3 {
    v3(p[0], p[1], p[2])
}

pub fn draw(random: &mut Random) -> Point {
    let length = pick(random, &LENGTHS);
    let axis = random.below(3) as usize;
    let mut along = [0.0; 3];
    along[axis] = pick(random, &[1.0, -1.0]);
    let whole = [0; 3].map(|_| random.below(7) as f64 - 3.0);
    let any = any_point(random);
    scaled(pick(random, &[along, along, whole, any]), length)
}

/// To this length, or where that is not allowed to 1; up along z where there is none.
fn scaled(p: Point, length: f64) -> Point {
    let v = vector(p);
    if v.length() == 0.0 {
        return [0.0, 0.0, 1.0];
    }
    let long = v * (length / v.length());
    let v = if is_allowed(long) { long } else { v.normalized() };
    [v.x, v.y, v.z]
}

fn is_allowed(v: Vec3) -> bool {
    (0.25..=4.0).contains(&v.length_sq()) && [v.x, v.y, v.z].iter().all(|c| c.abs() <= 2.0)
}

/// A direction that, made as long as 1, has this cosine to the unit vector to the f64 where one is found, else nearly.
pub fn with_cosine(random: &mut Random, n: Vec3, cosine: f64) -> Point {
    let across = n.cross(vector(any_point(random))).normalized();
    let sine = (1.0 - cosine * cosine).max(0.0).sqrt();
    let mut near = (f64::INFINITY, [0.0, 0.0, 1.0]);
    for _ in 0..60 {
        let length = 0.6 + 1.3 * random.below(1 << 20) as f64 / (1 << 20) as f64;
        let v = (n * cosine + across * sine) * length;
        let [x, y, z] = [v.x, v.y, v.z].map(|c| nudge(random, c));
        let off = (n.dot(v3(x, y, z).normalized()) - cosine).abs();
        if off < near.0 && is_allowed(v3(x, y, z)) {
            near = (off, [x, y, z]);
        }
        if off == 0.0 {
            break;
        }
    }
    near.1
}

/// The part in exact quarter turns, its axes and its up along with it.
pub fn quarter_turns(random: &mut Random, mesh: &mut Mesh) {
    let (by, signs) = (random.below(3) as usize, pick(random, &[[1.0; 3], [1.0, -1.0, -1.0], [-1.0, 1.0, -1.0], [-1.0, -1.0, 1.0]]));
    let turn = |mut p: Point| {
        p.rotate_left(by);
        [0, 1, 2].map(|k| p[k] * signs[k])
    };
    mesh.points_mut().for_each(|p| *p = turn(*p));
    jobs::change(&mut mesh.job, |print| print.up = turn(print.up));
    for entry in mesh.polygons.iter_mut().map(|p| &mut p.entry).filter(|e| [1, 2].contains(&word(e, 16))) {
        for at in [24, 48] {
            let turned = turn([0, 8, 16].map(|k| real(entry, at + k)));
            (0..3).for_each(|k| set_real(entry, at + 8 * k, turned[k]));
        }
    }
}
