//! Bodies that are hard on readings and hits: faces of many equal polygons, plates whose rays meet sides and vertices, sides at 120 degrees,
//! polygons of no area, surfaces that do not fit.
use crate::bores::{self, arranged, put, Axis, Frame, Wall, WORLD};
use crate::mesh::{Mesh, Point};
use crate::random::Random;
use crate::shapes::{block, pick, shuffle};
use std::f64::consts::TAU;

pub fn draw(random: &mut Random) -> Mesh {
    let mut mesh = Mesh::empty();
    match random.below(20) {
        0..=6 => bores::bore(random, &mut mesh),
        7 => (0..1 + random.below(3)).for_each(|_| bores::bore(random, &mut mesh)),
        8 | 9 => bores::tipped(random, &mut mesh),
        10 => bores::halves(random, &mut mesh),
        11 => blocks(random, &mut mesh),
        12 | 13 => fine_face(random, &mut mesh),
        14 | 15 => plates(random, &mut mesh),
        16 => prism(random, &mut mesh),
        17 if random.below(2) == 0 => flat_round(random, &mut mesh),
        17 => mixed_kinds(random, &mut mesh),
        _ => no_area(random, &mut mesh),
    }
    mesh
}

/// Blocks, now and then one in another, of which the sides' areas agree in pairs.
fn blocks(random: &mut Random, mesh: &mut Mesh) {
    for k in 0..1 + random.below(3) as u32 {
        let size = [0; 3].map(|_| pick(random, &[1.0, 2.0, 0.5, 10.0, 0.001]));
        let low = [0; 3].map(|_| pick(random, &[0.0, 0.25, -1.0, 0.5]));
        block(mesh, k, low, size, random.below(3) == 0);
    }
}

/// A block of which one side is cut into many polygons, or which has a small bore: more polygons than rays, so that some are passed over.
fn fine_face(random: &mut Random, mesh: &mut Mesh) {
    if random.below(4) == 0 {
        return whole_share(random, mesh);
    }
    let size = pick(random, &[1.0, 10.0, 1000.0]);
    block(mesh, 9, [0.0, 0.0, -size], [size; 3], false);
    match random.below(3) {
        0 => {
            let n = pick(random, &[4, 8, 16, 23]);
            let wall = Wall {
                frame: Frame { origin: [0.5 * size, 0.5 * size, -size], ..WORLD },
                angles: (0..n).map(|k| TAU * k as f64 / n as f64).collect(),
                closed: true,
                radius: 0.001 * size,
                heights: [0.0, pick(random, &[0.001, 0.1, 1.0]) * size],
                inward: true,
                triangles: random.below(2) == 0,
            };
            let mut facets = wall.polygons();
            arranged(random, &mut facets);
            put(mesh, (9, 9), facets, Some(Axis { origin: wall.frame.origin, dir: [0.0, 0.0, 1.0], radius: size }));
        }
        1 => {
            mesh.polygons.remove(1);
            let n = if random.below(20) == 0 { 20 } else { 2 + random.below(4) as usize };
            put(mesh, (9, 1), patch([0.0; 3], size, n, pick(random, &[0.0, 0.3])), None);
        }
        _ => put(mesh, (8, 8), patch([0.25 * size, 0.25 * size, 0.0], pick(random, &[1e-3, 0.1, 0.3]) * size, 2 + random.below(4) as usize, 0.0), None),
    }
}

/// 128 triangles of together 1 mm² over one polygon of 7: a share of just 75 rays, or a little more or less.
fn whole_share(random: &mut Random, mesh: &mut Mesh) {
    let mut triangles = patch([0.0; 3], 1.0, 8, pick(random, &[0.0, 0.0, 0.3]));
    arranged(random, &mut triangles);
    put(mesh, (9, 1), triangles, None);
    let long = pick(random, &[7.0, 7.0, 7.0f64.next_up(), 7.0f64.next_down(), 6.997, 7.003, 6.9, 7.1]);
    put(mesh, (9, 0), vec![vec![[0.0, 0.0, -1.0], [0.0, 1.0, -1.0], [long, 1.0, -1.0], [long, 0.0, -1.0]]], None);
}

/// A square, facing up, in n × n cells of two triangles, the columns of one width or of several.
pub fn patch(low: Point, size: f64, n: usize, uneven: f64) -> Vec<Vec<Point>> {
    let step = |k: usize| size * (k as f64 / n as f64 + if k % 2 == 1 { uneven / n as f64 } else { 0.0 });
    let at = |i: usize, j: usize| [low[0] + step(i), low[1] + size * j as f64 / n as f64, low[2]];
    let cell = |i: usize, j: usize| [vec![at(i, j), at(i + 1, j), at(i + 1, j + 1)], vec![at(i, j), at(i + 1, j + 1), at(i, j + 1)]];
    (0..n * n).flat_map(|k| cell(k / n, k % n)).collect()
}

/// Parallel plates of squares, moved against each other by a half or not, some of them twice: rays meet sides, vertices and equal t.
fn plates(random: &mut Random, mesh: &mut Mesh) {
    let (n, unit) = (1 + random.below(4) as usize, pick(random, &[1.0, 0.3, 1e-3]));
    let turned = random.below(3) as usize;
    for k in 0..2 + random.below(4) as u32 {
        let off = pick(random, &[0.0, 0.0, 0.5, 0.25]) * unit;
        let height = pick(random, &[0.0, 0.0, 1.0, 2.0, 2.0, 1e-6, 1e-3, 2e-6]);
        let up = random.below(2) == 0;
        for i in 0..n * n {
            let at = |di: usize, dj: usize| {
                let mut p = [off + unit * (i / n + di) as f64, off + unit * (i % n + dj) as f64, height];
                p.rotate_left(turned);
                p
            };
            let mut square = vec![at(0, 0), at(1, 0), at(1, 1), at(0, 1)];
            if !up {
                square.reverse();
            }
            mesh.push((k, pick(random, &[0, 0, 1])), square);
        }
    }
    if random.below(2) == 0 {
        shuffle(random, &mut mesh.polygons);
    }
}

/// Of three or six sides: opposite normals at 120 degrees, where a hit just faces back or not.
fn prism(random: &mut Random, mesh: &mut Mesh) {
    let n = pick(random, &[3, 3, 6]);
    let (frame, start) = (Frame::draw(random), unit_share(random));
    let angles = (0..n).map(|k| TAU * (k as f64 + start) / n as f64).collect();
    let radius = pick(random, &[1.0, 5.0, 12.5]);
    let wall = Wall { frame, angles, closed: true, radius, heights: [0.0, 4.0], inward: false, triangles: random.below(2) == 0 };
    for (k, points) in wall.polygons().into_iter().enumerate() {
        put(mesh, (1, k as u32), vec![points], None);
    }
}

fn unit_share(random: &mut Random) -> f64 {
    pick(random, &[0.0, 0.5, 0.25, 0.1, 0.7])
}

/// Blocks with the surface of a cylinder on some polygons: a face's first decides; flat faces across the axis have a length of zero.
fn mixed_kinds(random: &mut Random, mesh: &mut Mesh) {
    blocks(random, mesh);
    let frame = Frame { origin: [0; 3].map(|_| pick(random, &[0.0, 0.5, -0.0])), ..Frame::draw(random) };
    let axis = Axis::draw(random, &frame, 1.0);
    let faces = 1 + random.below(4) as u32;
    for polygon in &mut mesh.polygons {
        if random.below(2) == 0 {
            axis.on(polygon);
        }
        if random.below(2) == 0 {
            polygon.set_face((3, random.below(u64::from(faces)) as u32));
        }
    }
}

/// Across its axis and through its origin, with zeros of both signs: the running extent keeps the first.
fn flat_round(random: &mut Random, mesh: &mut Mesh) {
    let zero = |random: &mut Random| pick(random, &[0.0, -0.0]);
    let origin = [0; 3].map(|_| zero(random));
    for k in 0..1 + random.below(3) {
        let x = 3.0 * k as f64 - 2.0;
        let mut points: Vec<Point> = [[x, -1.0], [x + 1.0, -1.0], [x + 1.0, 1.0], [x, 1.0]].map(|[x, y]| [x, y, zero(random)]).to_vec();
        if random.below(2) == 0 {
            points.reverse();
        }
        put(mesh, (4, 0), vec![points], Some(Axis { origin, dir: [0.0, zero(random), 1.0], radius: 1.0 }));
    }
}

/// Polygons on a line, far out: the normal sum is a rounding's, the area zero. Some face each other, so that a ray would hit if one were cast.
/// With or without others.
fn no_area(random: &mut Random, mesh: &mut Mesh) {
    for k in 0..1 + random.below(2) as u32 {
        // every coordinate a multiple of 2^-20 between 4096 and 8192, so that differences are exact
        let grid = |n: u64| n as f64 / (1 << 20) as f64;
        let start = [0; 3].map(|_| 4200.0 + grid(random.below(1 << 31)));
        let dir = [0; 3].map(|_| grid(random.below(1 << 23)));
        let count = pick(random, &[3, 3, 4, 5]);
        let mut points: Vec<Point> = (0..count).map(|i| [0, 1, 2].map(|c| start[c] + dir[c] * f64::from(i))).collect();
        if random.below(2) == 0 {
            shuffle(random, &mut points);
        }
        mesh.push((5, k % 2), points.clone());
        points.reverse();
        let (axis, by) = (random.below(3) as usize, pick(random, &[0.5, 1.0, -0.5, -2.0]));
        points.iter_mut().for_each(|p| p[axis] += by);
        mesh.push((6, k % 2), points);
    }
    if random.below(4) == 0 {
        blocks(random, mesh);
    }
}
