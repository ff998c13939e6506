//! Changes of a part's points, polygons and surfaces.
use crate::mend;
use common::field::{real, set_real, set_word, word};
use common::mesh::{Mesh, Point, Polygon, MOST_POINTS};
use common::random::Random;
use common::shapes::{nudge, pick, within, STEPS};

/// Numbers that the rules compare with, and what comes of them.
pub const LIMITS: [f64; 40] = [
    0.8, 0.4, 0.5, 1.0, 2.0, 4.0, 10.0, 0.1, 0.05, 0.2, 6.0, 0.99, 2.5, 1.5, 1.2, 0.94, 0.6, 0.15, 0.03, 0.01, 1e-3, 1e-4, 1e-5, 1e-6, 1e-9, 1e-12, 1e-14, 3.0,
    5.0, 0.25, 20.0, 0.125, 0.375, 1.005, 45.0, 60.0, 100.0, 0.75, 1.6, 8.0,
];

fn index(random: &mut Random, n: usize) -> usize {
    random.below(n as u64) as usize
}

pub fn any<'a, T>(random: &mut Random, list: &'a mut [T]) -> &'a mut T {
    let i = index(random, list.len());
    &mut list[i]
}

fn point(random: &mut Random, mesh: &Mesh) -> Point {
    let polygon = &mesh.polygons[index(random, mesh.polygons.len())];
    polygon.points[index(random, polygon.points.len())]
}

fn limit(random: &mut Random) -> f64 {
    let sign = pick(random, &[1.0, -1.0]);
    let near = pick(random, &LIMITS);
    sign * nudge(random, near)
}

/// Another number in the place of c: one of the part's, or a limit away from one.
fn number(random: &mut Random, mesh: &Mesh, c: f64, axis: usize) -> f64 {
    let other = point(random, mesh)[if random.below(4) == 0 { index(random, 3) } else { axis }];
    let step = pick(random, &STEPS) * pick(random, &[1.0, -1.0]);
    let made = match random.below(13) {
        0 => other,
        1 | 2 => other + limit(random),
        3 => c + step,
        4 => c + limit(random),
        5 => [c.next_up(), c.next_down(), c.next_up().next_up(), c.next_down().next_down()][index(random, 4)],
        6 => -c,
        7 => c * pick(random, &[0.5, 2.0, 0.1, 10.0, 0.99, 1.01, 3.0]),
        8 => (c * 1e4).round() / 1e4,
        9 => limit(random),
        10 => pick(random, &[0.0, -0.0, 1e4, -1e4]),
        11 => (c + other) / 2.0,
        _ => c + (random.below(2001) as f64 - 1000.0) / 1000.0 * pick(random, &[1e-6, 1e-3, 0.1, 1.0, 20.0]),
    };
    within(made)
}

/// All points that have a coordinate: so walls stay walls and only what lies between them changes.
pub fn plane(random: &mut Random, mesh: &mut Mesh) {
    let axis = index(random, 3);
    let c = point(random, mesh)[axis];
    let to = number(random, mesh, c, axis);
    mesh.points_mut().filter(|p| p[axis] == c).for_each(|p| p[axis] = to);
}

/// A corner, in every polygon that has it.
pub fn corner(random: &mut Random, mesh: &mut Mesh) {
    let from = point(random, mesh);
    let mut to = from;
    let axis = index(random, 3);
    to[axis] = number(random, mesh, from[axis], axis);
    if random.below(4) == 0 {
        to = point(random, mesh);
    }
    mesh.points_mut().filter(|p| **p == from).for_each(|p| *p = to);
}

/// A point of one polygon.
pub fn alone(random: &mut Random, mesh: &mut Mesh) {
    let (i, axis) = (index(random, mesh.polygons.len()), index(random, 3));
    let k = index(random, mesh.polygons[i].points.len());
    let c = mesh.polygons[i].points[k][axis];
    mesh.polygons[i].points[k][axis] = number(random, mesh, c, axis);
}

/// A polygon moved, turned over, begun elsewhere, taken out, put again, or put elsewhere in the list.
pub fn polygon(random: &mut Random, mesh: &mut Mesh) {
    let i = index(random, mesh.polygons.len());
    let to = index(random, mesh.polygons.len());
    match random.below(6) {
        0 => mesh.polygons[i].points.reverse(),
        1 => {
            let by = index(random, mesh.polygons[i].points.len());
            mesh.polygons[i].points.rotate_left(by);
        }
        2 => drop(mesh.polygons.remove(i)),
        3 => mesh.polygons.swap(i, to),
        4 => {
            let mut copy = mesh.polygons[i].clone();
            moved(random, &mut copy.points);
            mesh.polygons.insert(to, copy);
        }
        _ => moved(random, &mut mesh.polygons[i].points),
    }
}

fn moved(random: &mut Random, points: &mut [Point]) {
    let (axis, by) = (index(random, 3), limit(random));
    points.iter_mut().for_each(|p| p[axis] = within(p[axis] + by));
}

/// A point more in the middle of a side, or one less.
pub fn side(random: &mut Random, mesh: &mut Mesh) {
    let at = any(random, &mut mesh.polygons);
    let n = at.points.len();
    let i = index(random, n);
    if random.below(3) == 0 && n > 3 {
        at.points.remove(i);
    } else if n < MOST_POINTS {
        let (a, b) = (at.points[i], at.points[(i + 1) % n]);
        let share = pick(random, &[0.5, 0.5, 0.25, 0.1]);
        at.points.insert(i + 1, [0, 1, 2].map(|k| a[k] + (b[k] - a[k]) * share));
    }
}

/// A polygon in two, at two of its points.
pub fn split(random: &mut Random, mesh: &mut Mesh) {
    let i = index(random, mesh.polygons.len());
    let n = mesh.polygons[i].points.len();
    if n < 4 {
        return;
    }
    let (from, count) = (index(random, n), 2 + index(random, n - 3));
    let mut rest = mesh.polygons[i].clone();
    mesh.polygons[i].points.rotate_left(from);
    rest.points.rotate_left(from);
    mesh.polygons[i].points.truncate(count + 1);
    rest.points.drain(1..count);
    mesh.polygons.push(rest);
}

/// The face of another polygon, or a new one.
pub fn face(random: &mut Random, mesh: &mut Mesh) {
    let other = mesh.polygons[index(random, mesh.polygons.len())].face();
    let at = any(random, &mut mesh.polygons);
    let (feature, k) = at.face();
    at.set_face(pick(random, &[other, other, (other.0, k), (feature, other.1), (feature, k.wrapping_add(1)), (feature ^ 1, k)]));
}

/// The surface of another polygon, another kind, or one of its numbers changed; for a polygon or for its face.
pub fn surface(random: &mut Random, mesh: &mut Mesh) {
    let other = mesh.polygons[index(random, mesh.polygons.len())].entry.clone();
    let i = index(random, mesh.polygons.len());
    let mut entry = mesh.polygons[i].entry.clone();
    match random.below(4) {
        0 => entry[16..80].copy_from_slice(&other[16..80]),
        1 => set_word(&mut entry, 16, random.below(4) as u32),
        _ => {
            let at = pick(random, &[24, 32, 40, 48, 56, 64, 72, 72, 72]);
            let c = real(&entry, at);
            set_real(&mut entry, at, number(random, mesh, c, 0).abs() * pick(random, &[1.0, 1.0, -1.0]));
        }
    }
    let kind = word(&entry, 16);
    mend::surface(&mut entry, kind);
    let (face, whole) = (mesh.polygons[i].face(), random.below(2) == 0);
    let same = |k: usize, p: &Polygon| k == i || whole && p.face() == face;
    mesh.polygons.iter_mut().enumerate().filter(|(k, p)| same(*k, p)).for_each(|(_, p)| p.entry[16..80].copy_from_slice(&entry[16..80]));
}

/// The whole with its surfaces: larger, smaller, moved, or its axes changed.
pub fn whole(random: &mut Random, mesh: &mut Mesh) {
    let by = pick(random, &[0.5, 2.0, 0.1, 10.0, 0.25, 0.9, 1.1]);
    let off = [0; 3].map(|_| limit(random));
    match random.below(3) {
        0 => each(mesh, |p, far| p.map(|c| if far { c * by } else { c }), by),
        1 => each(mesh, |p, far| if far { [0, 1, 2].map(|k| p[k] + off[k]) } else { p }, 1.0),
        _ => each(mesh, |p, _| [p[1], p[2], p[0]], 1.0),
    }
}

/// Points and origins by the rule with `far`, directions without it, radii times `by`.
fn each(mesh: &mut Mesh, rule: impl Fn(Point, bool) -> Point, by: f64) {
    mesh.points_mut().for_each(|p| *p = rule(*p, true).map(within));
    for polygon in &mut mesh.polygons {
        let entry = &mut polygon.entry;
        let kind = word(entry, 16);
        for (at, far) in [(24, true), (48, false)] {
            let made = rule([0, 8, 16].map(|k| real(entry, at + k)), far);
            (0..3).for_each(|k| set_real(entry, at + 8 * k, made[k]));
        }
        let radius = real(entry, 72) * by;
        set_real(entry, 72, radius);
        mend::surface(entry, kind);
    }
}
