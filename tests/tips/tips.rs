//! Bores that are open on one side, with a conical tip: in the bore's face or apart, on the axis, within 1e-6 of it and one f64 beside that; and faces whose
//! vertices all lie on the axis.
use against::machining::limits;
use common::bores::{arranged, gap, put, Axis, Frame, Wall, WORLD};
use common::field::{set_real, set_word};
use common::mesh::{Mesh, Point, Polygon};
use common::random::Random;
use common::shapes::{pick, within};
use oracle::faults::Part;
use oracle::measures::Measures;
use std::f64::consts::{PI, TAU};

/// A vertex nearer the axis gives no direction.
pub const NEAR: f64 = 1e-6;

const BORE: (u32, u32) = (1, 0);
const APART: (u32, u32) = (1, 1);

pub fn draw(random: &mut Random) -> Mesh {
    let mut mesh = Mesh::empty();
    match random.below(12) {
        0 => on_axis(random, &mut mesh),
        1..=7 => one_polygon(random, &mut mesh),
        _ => facets(random, &mut mesh),
    }
    if random.below(8) != 0 {
        make_concave(&mut mesh);
    }
    mesh.job = limits::job(random);
    mesh
}

/// A bore open over some angle, and its tip.
struct Open {
    frame: Frame,
    axis: Axis,
    angles: Vec<f64>,
    tip: Point,
    height: f64,
}

fn from_to(random: &mut Random, lo: f64, hi: f64) -> f64 {
    lo + (hi - lo) * random.below(1 << 30) as f64 / (1 << 30) as f64
}

/// Exact quarter turns about zero, in which the tip is as far from the axis as it is said to be, or any.
fn frame(random: &mut Random) -> Frame {
    let turned = Frame::draw(random);
    match random.below(4) {
        0 => Frame { origin: [0.0; 3], ..WORLD },
        1 => Frame { origin: [0.0; 3], x: WORLD.y, y: WORLD.z, z: WORLD.x },
        2 => Frame { origin: [0.0; 3], x: WORLD.z, y: WORLD.x, z: WORLD.y },
        _ => turned,
    }
}

impl Open {
    fn draw(random: &mut Random) -> Open {
        let frame = frame(random);
        let named = pick(random, &[0.4, 0.45, 0.5, 0.5, 0.75, 1.0, 2.0, 40.0]);
        let axis = Axis::draw(random, &frame, named);
        let any = from_to(random, 0.1, 0.4);
        let wide = pick(random, &[any, any, any, any, 0.15, 0.3, 0.35, gap() - 1e-6, gap() + 1e-6, 2.0 * gap() - 1e-6, 2.0 * gap() + 1e-6]);
        // where the tip would stand in it, and to which side it is open
        let share = pick(random, &[0.5, 0.5, 0.5, 0.5, 0.4, 0.6, 0.1]);
        let side = pick(random, &[0.0, 0.0, 0.0, 0.0, PI, 1.0]);
        let start = frame.angle(axis.first()) + side + share * wide;
        let n = pick(random, &[31, 31, 32, 33, 40, 50, 24]);
        let angles = (0..n).map(|k| start + (TAU - wide) * f64::from(k) / f64::from(n - 1)).collect();
        let height = pick(random, &[1.0, 5.0, 9.0, 30.0]);
        let top = height + pick(random, &[0.0, 0.5, 1.0, -0.5]);
        let tip = tip(random, &frame, &axis, top);
        Open { frame, axis, angles, tip, height }
    }
}

/// So far from the axis, along the first direction or elsewhere.
fn tip(random: &mut Random, frame: &Frame, axis: &Axis, height: f64) -> Point {
    let off = pick(random, &[0.0, 0.0, 0.0, 1e-9, 0.9e-6, NEAR.next_down(), NEAR.next_down(), NEAR, NEAR, NEAR.next_up(), 1.1e-6, 0.01]);
    let (s, c) = pick(random, &[(0.0, 1.0), (0.0, 1.0), (0.0, 1.0), (1.0, 0.0), (0.6, -0.8)]);
    let (on, first, second) = (frame.at(0.0, 0.0, height), axis.first(), axis.second());
    [0, 1, 2].map(|k| on[k] + off * (c * first[k] + s * second[k]))
}

/// What a tip in a face of its own says that it is: a plane, a revolved face, the same cylinder or another surface.
fn apart(random: &mut Random, mesh: &mut Mesh, axis: &Axis, polygons: Vec<Vec<Point>>) {
    let kind = random.below(4) as u32;
    for points in polygons {
        let mut polygon = Polygon::new(APART, points.into_iter().map(|p| p.map(within)).collect());
        match kind {
            1 => axis.on(&mut polygon),
            2 => {
                axis.on(&mut polygon);
                set_word(&mut polygon.entry, 16, 2);
                set_real(&mut polygon.entry, 72, 0.0);
            }
            _ => set_word(&mut polygon.entry, 16, kind),
        }
        mesh.polygons.push(polygon);
    }
}

/// All corners in one polygon, and the tip in it, or in another of the same face or of one apart. It is as long as one corner is high.
fn one_polygon(random: &mut Random, mesh: &mut Mesh) {
    let open = Open::draw(random);
    let high = pick(random, &[0, 1, 15, 20]);
    let corner = |(k, angle): (usize, &f64)| {
        let (s, c) = angle.sin_cos();
        open.frame.at(2.0 * c, 2.0 * s, if k == high { open.height } else { 0.0 })
    };
    let mut corners: Vec<Point> = open.angles.iter().enumerate().map(corner).collect();
    let last = corners.len() - 1;
    let cone = vec![corners[0], corners[last], open.tip];
    match random.below(4) {
        0 => {
            put(mesh, BORE, vec![corners], Some(open.axis));
            apart(random, mesh, &open.axis, vec![cone]);
        }
        1 => put(mesh, BORE, vec![corners, cone], Some(open.axis)),
        2 => put(mesh, BORE, vec![cone, corners], Some(open.axis)),
        _ => {
            corners.insert(random.below(last as u64 + 2) as usize, open.tip);
            put(mesh, BORE, vec![corners], Some(open.axis));
        }
    }
}

/// Facets, and a cone of triangles over them.
fn facets(random: &mut Random, mesh: &mut Mesh) {
    let open = Open::draw(random);
    let (closed, triangles) = (random.below(4) == 0, random.below(4) == 0);
    let Open { frame, axis, angles, tip, height } = open;
    let wall = Wall { frame, angles, closed, radius: 2.0, heights: [0.0, height], inward: true, triangles };
    let mut facets = wall.polygons();
    let cone = wall.tip(tip);
    if random.below(3) == 0 {
        arranged(random, &mut facets);
        put(mesh, BORE, facets, Some(axis));
        apart(random, mesh, &axis, cone);
    } else {
        facets.extend(cone);
        arranged(random, &mut facets);
        put(mesh, BORE, facets, Some(axis));
    }
}

/// A face whose vertices lie on the axis, or most of them, often beside a bore.
fn on_axis(random: &mut Random, mesh: &mut Mesh) {
    let frame = frame(random);
    let named = pick(random, &[0.4, 0.5, 2.0]);
    let axis = Axis::draw(random, &frame, named);
    let n = 3 + random.below(4);
    let point = |random: &mut Random, k: u64| {
        let angle = TAU * random.below(64) as f64 / 64.0;
        let off = pick(random, &[0.0, 1e-9, 1e-7, 5e-7, 5e-7, 0.8e-6, 0.9e-6, 0.9e-6]);
        let off = if random.below(64) == 0 { 2e-6 } else { off };
        let height = pick(random, &[0.0, 3.0, 5.0, 9.0]) + k as f64;
        frame.at(off * angle.cos(), off * angle.sin(), height)
    };
    let polygons = (0..1 + random.below(3)).map(|_| (0..n).map(|k| point(random, k)).collect()).collect();
    put(mesh, (2, 0), polygons, Some(axis));
    if random.below(2) == 0 {
        one_polygon(random, mesh);
    }
}

/// Turned over where no cylinder is concave.
fn make_concave(mesh: &mut Mesh) {
    let Ok(part) = Part::read(&mesh.bytes()) else { return };
    if !Measures::of(part.body()).rounds().iter().any(|r| r.concave) {
        mesh.polygons.iter_mut().for_each(|p| p.points.reverse());
    }
}
