//! Bores and bosses, for rounds and holes: of any number of facets in any order, along any axis, open ones, ones with a tip on the axis, ones
//! with a gap at the limit.
use crate::field::{set_real, set_word};
use crate::mesh::{Mesh, Point, Polygon};
use crate::random::Random;
use crate::shapes::{any_point, nudge, pick, shuffle, within};
use crate::vector::cross;
use std::f64::consts::{FRAC_PI_2, TAU};

/// A gap of so many rad is too wide for a hole: its tangent is 0.20271.
pub fn gap() -> f64 {
    0.20271f64.atan()
}

/// Where an axis stands; x, y and z are unit vectors.
#[derive(Clone, Copy)]
pub struct Frame {
    pub origin: Point,
    pub x: Point,
    pub y: Point,
    pub z: Point,
}

pub const WORLD: Frame = Frame { origin: [0.0; 3], x: [1.0, 0.0, 0.0], y: [0.0, 1.0, 0.0], z: [0.0, 0.0, 1.0] };

impl Frame {
    /// As drawn, in exact quarter turns, or any.
    pub fn draw(random: &mut Random) -> Frame {
        let origin = [0; 3].map(|_| pick(random, &[0.0, -0.0, 10.0, -3.5, 1234.5678, -8000.0]));
        let axes = [WORLD.x, WORLD.y, WORLD.z];
        let k = random.below(3) as usize;
        let (x, y, z) = (axes[k], axes[(k + 1) % 3], axes[(k + 2) % 3]);
        match random.below(4) {
            0 => Frame { origin, ..WORLD },
            1 => Frame { origin, x, y, z },
            2 => Frame { origin, x: y, y: x, z: z.map(|c| -c) },
            _ => Frame { origin, ..Frame::turned(any_point(random), any_point(random)) },
        }
    }

    fn turned(a: Point, b: Point) -> Frame {
        let z = unit(a);
        let x = unit(cross(z, b));
        Frame { origin: [0.0; 3], x, y: cross(z, x), z }
    }

    pub fn at(&self, x: f64, y: f64, z: f64) -> Point {
        [0, 1, 2].map(|k| self.origin[k] + self.x[k] * x + self.y[k] * y + self.z[k] * z)
    }

    /// The angle of a direction across z.
    pub fn angle(&self, v: Point) -> f64 {
        let along = |axis: Point| (0..3).map(|k| v[k] * axis[k]).sum::<f64>();
        along(self.y).atan2(along(self.x))
    }
}

fn unit(v: Point) -> Point {
    v.map(|c| c / v.iter().map(|c| c * c).sum::<f64>().sqrt())
}

/// The surface of a cylinder's polygons.
#[derive(Clone, Copy)]
pub struct Axis {
    pub origin: Point,
    pub dir: Point,
    pub radius: f64,
}

impl Axis {
    pub fn draw(random: &mut Random, frame: &Frame, radius: f64) -> Axis {
        let (along, long) = (pick(random, &[0.0, 0.0, 3.0, -20.0, 0.1]), pick(random, &[1.0, 1.0, -1.0, 0.5, 1.9, -0.75]));
        Axis { origin: frame.at(0.0, 0.0, along).map(within), dir: frame.z.map(|c| c * long), radius }
    }

    /// The direction that offsets are first measured along.
    pub fn first(&self) -> Point {
        let axis = unit(self.dir);
        unit(cross(axis, if axis[0].abs() < 0.9 { WORLD.x } else { WORLD.y }))
    }

    /// And the second, across it.
    pub fn second(&self) -> Point {
        cross(unit(self.dir), self.first())
    }

    pub fn on(&self, polygon: &mut Polygon) {
        set_word(&mut polygon.entry, 16, 1);
        let numbers = [self.origin, self.dir].concat().into_iter().chain([self.radius]);
        numbers.enumerate().for_each(|(k, x)| set_real(&mut polygon.entry, 24 + 8 * k, x));
    }
}

/// Angles of a bore's corners, and whether the last is joined to the first.
fn angles(random: &mut Random) -> (Vec<f64>, bool) {
    let few = 3 + random.below(40) as usize;
    let n = pick(random, &[3, 4, 5, 6, 8, 12, 16, 24, 30, 31, 31, 32, 32, 33, 48, 64, few, few, few, few]);
    let n = if random.below(40) == 0 { 3 + random.below(198) as usize } else { n };
    let start = pick(random, &[0.0, 0.0, 0.5, 0.25, 0.123]);
    let even = |k: usize| TAU * (k as f64 + start) / n as f64;
    match random.below(8) {
        0..=3 => ((0..n).map(even).collect(), true),
        4 => ((0..n - random.below(n as u64 - 1) as usize).map(even).collect(), false),
        5 | 6 => {
            // one gap at the limit or a rounding beside it, the others narrower
            let wide = gap() + pick(random, &[0.0, 1e-7, -1e-7, 3e-7, -3e-7, 1e-6, -1e-6, 2e-6, -2e-6, 1e-5, -1e-5]);
            let n = n.max(33);
            ((0..n).map(|k| start + (TAU - wide) * k as f64 / (n - 1) as f64).collect(), random.below(4) != 0)
        }
        _ => {
            let mut list: Vec<f64> = (0..n).map(|_| TAU * random.below(1 << 20) as f64 / (1 << 20) as f64).collect();
            list.sort_by(f64::total_cmp);
            list.dedup();
            let enough = list.len() > 1;
            (if enough { list } else { vec![0.0, 1.0, 2.0] }, true)
        }
    }
}

/// The facets between the angles: inward for a bore, outward for a boss.
pub struct Wall {
    pub frame: Frame,
    pub angles: Vec<f64>,
    pub closed: bool,
    pub radius: f64,
    pub heights: [f64; 2],
    pub inward: bool,
    pub triangles: bool,
}

impl Wall {
    pub fn corner(&self, k: usize, height: usize) -> Point {
        let (s, c) = self.angles[k % self.angles.len()].sin_cos();
        self.frame.at(self.radius * c, self.radius * s, self.heights[height])
    }

    fn facets(&self) -> usize {
        self.angles.len() - usize::from(!self.closed)
    }

    pub fn polygons(&self) -> Vec<Vec<Point>> {
        let mut list = Vec::new();
        for k in 0..self.facets() {
            let (a, b) = if self.inward { (k + 1, k) } else { (k, k + 1) };
            let quad = [self.corner(a, 0), self.corner(b, 0), self.corner(b, 1), self.corner(a, 1)];
            if self.triangles {
                list.push(vec![quad[0], quad[1], quad[2]]);
                list.push(vec![quad[0], quad[2], quad[3]]);
            } else {
                list.push(quad.to_vec());
            }
        }
        list
    }

    /// Triangles from the upper rim to one point.
    pub fn tip(&self, tip: Point) -> Vec<Vec<Point>> {
        let triangle = |k: usize| {
            let (a, b) = if self.inward { (k + 1, k) } else { (k, k + 1) };
            vec![self.corner(a, 1), self.corner(b, 1), tip]
        };
        (0..self.facets()).map(triangle).collect()
    }
}

/// A bore or a boss, most often with a wall to the other side and lids, so that rays hit something.
pub fn bore(random: &mut Random, mesh: &mut Mesh) {
    let (angles, closed) = angles(random);
    let frame = Frame::draw(random);
    let radius = pick(random, &[0.5, 1.0, 2.5, 5.0, 0.001, 1e-6, 40.0, 1000.0]);
    let heights = pick(random, &[[0.0, 1.0], [-2.0, 7.5], [0.0, 30.0], [-0.001, 0.0], [5.0, 100.0]]);
    let (inward, triangles) = (random.below(4) != 0, random.below(2) == 0);
    let mut wall = Wall { frame, angles, closed, radius, heights, inward, triangles };
    let named = pick(random, &[radius.max(0.001), 1.0]);
    let axis = Axis::draw(random, &frame, named);
    let feature = mesh.polygons.len() as u32;
    let mut facets = wall.polygons();
    if random.below(4) == 0 {
        // nearer to the axis than 1e-6, or not quite
        let off = pick(random, &[0.0, 0.0, 1e-7, 9.9e-7, 1e-6, 1.01e-6, 2e-6, 0.01]);
        let top = heights[1] + pick(random, &[0.0, 0.5, 3.0, -1.0]);
        facets.extend(wall.tip(frame.at(off, 0.0, top)));
    }
    arranged(random, &mut facets);
    put(mesh, (feature, 0), facets, Some(axis));
    if random.below(4) != 0 {
        (wall.inward, wall.radius) = (!inward, radius * pick(random, &[1.5, 2.0, 0.5, 1.0]));
        put(mesh, (feature, 1), wall.polygons(), if random.below(2) == 0 { Some(axis) } else { None });
    }
    if random.below(3) == 0 {
        put(mesh, (feature, 2), wall.tip(frame.at(0.0, 0.0, heights[1])), None);
    }
}

/// A bore open to the side that offsets are first measured along, with a tip on the axis or just beside it: a hole only where the tip gives a direction.
pub fn tipped(random: &mut Random, mesh: &mut Mesh) {
    let frame = Frame::draw(random);
    let axis = Axis::draw(random, &frame, 2.0);
    let towards = frame.angle(axis.first());
    let half = pick(random, &[0.15, 0.19, 0.2, 0.21, gap() - 1e-6, gap() + 1e-6]);
    let n = pick(random, &[32, 40, 50]);
    let angles = (0..n).map(|k| towards + half + (TAU - 2.0 * half) * k as f64 / (n - 1) as f64).collect();
    let (closed, triangles) = (random.below(2) == 0, random.below(2) == 0);
    let wall = Wall { frame, angles, closed, radius: 2.0, heights: [0.0, 5.0], inward: true, triangles };
    let off = pick(random, &[0.0, 1e-9, 9.9e-7, 0.999e-6, 1.001e-6, 1.01e-6, 2e-6, 0.01]);
    let (s, c) = (towards + pick(random, &[FRAC_PI_2, 2.0, 4.0])).sin_cos();
    let mut facets = wall.polygons();
    facets.extend(wall.tip(frame.at(off * c, off * s, 6.0)));
    arranged(random, &mut facets);
    put(mesh, (1, 0), facets, Some(axis));
}

/// The direction of an offset in whole numbers, halves by this rounding.
fn direction(x: f64, y: f64, round: fn(f64) -> f64) -> (i64, i64) {
    let whole = |c: f64| round(c / (x * x + y * y).sqrt() * 1048576.0) as i64;
    (whole(x), whole(y))
}

fn is_near(a: (i64, i64), b: (i64, i64)) -> bool {
    100_000 * (a.0 * b.1 - a.1 * b.0) < 20_271 * (a.0 * b.0 + a.1 * b.1)
}

/// A corner of a bore about z whose direction is a half, and one before it, such that a hole hangs on how the half is rounded.
fn on_a_half(random: &mut Random) -> Option<[(f64, f64); 2]> {
    // even, so that a half to even goes down
    let k = 2 * random.below(1 << 19);
    let x = (2 * k + 1) as f64 / (1 << 21) as f64;
    let root = (1.0 - x * x).sqrt();
    let y = [root, root.next_up(), root.next_down()].into_iter().find(|y| (x * x + y * y).sqrt() == 1.0)?;
    let turned = random.below(4);
    let quarter = |(x, y): (f64, f64)| (-y, x);
    let b = (0..turned).fold((x, y), |b, _| quarter(b));
    let before = |j: i64| {
        let (s, c) = (b.1.atan2(b.0) - gap() + 1e-7 * j as f64).sin_cos();
        (c, s)
    };
    let decides = |a: &(f64, f64)| {
        let of = |round| is_near(direction(a.0, a.1, round), direction(b.0, b.1, round));
        of(f64::round) != of(f64::round_ties_even)
    };
    (-20..20).map(before).find(decides).map(|a| [a, b])
}

/// A bore in whole about z, of which one gap lies before such a corner.
pub fn halves(random: &mut Random, mesh: &mut Mesh) {
    let Some([a, b]) = on_a_half(random) else { return bore(random, mesh) };
    let start = b.1.atan2(b.0);
    let n = 40;
    let others = (1..n).map(|k| start + (TAU - gap()) * f64::from(k) / f64::from(n)).map(|angle| (angle.cos(), angle.sin()));
    let corners: Vec<(f64, f64)> = [b].into_iter().chain(others).chain([a]).collect();
    // along z the first direction is +y, the second -x
    let at = |k: usize, z: f64| [-corners[k % corners.len()].1, corners[k % corners.len()].0, z];
    let facet = |k: usize| vec![at(k + 1, 0.0), at(k, 0.0), at(k, 1.0), at(k + 1, 1.0)];
    let mut facets: Vec<Vec<Point>> = (0..corners.len()).map(facet).collect();
    match random.below(3) {
        0 => facets.reverse(),
        1 => shuffle(random, &mut facets),
        _ => {}
    }
    put(mesh, (1, 0), facets, Some(Axis { origin: [0.0; 3], dir: WORLD.z, radius: 1.0 }));
}

/// In another order, some begun elsewhere, some turned over.
pub fn arranged(random: &mut Random, facets: &mut [Vec<Point>]) {
    match random.below(4) {
        0 => facets.reverse(),
        1 if random.below(2) == 0 => shuffle(random, facets),
        _ => {}
    }
    if random.below(4) == 0 {
        for facet in facets.iter_mut() {
            let by = random.below(facet.len() as u64) as usize;
            facet.rotate_left(by);
        }
    }
    match random.below(16) {
        0 => facets[0].reverse(),
        1 => facets.iter_mut().step_by(2).for_each(|f| f.reverse()),
        2 => facets.iter_mut().for_each(|f| f.iter_mut().flatten().for_each(|c| *c = nudge(random, *c))),
        _ => {}
    }
}

pub fn put(mesh: &mut Mesh, face: (u32, u32), facets: Vec<Vec<Point>>, axis: Option<Axis>) {
    for points in facets {
        let mut polygon = Polygon::new(face, points.into_iter().map(|p| p.map(within)).collect());
        axis.iter().for_each(|a| a.on(&mut polygon));
        mesh.polygons.push(polygon);
    }
}
