//! Bodies that are hard on keys, chains and unions: few distinct points, ties, many sides on one segment, bodies that touch in a vertex only.
use crate::mesh::{Mesh, Point, MOST_POLYGONS};
use crate::random::Random;

/// Distances between neighbouring coordinates: whole, a key of 1e4 or 1e5, half a key, a little more or less.
pub const STEPS: [f64; 11] = [1.0, 0.25, 1e-4, 1e-5, 5e-5, 5e-6, 4e-5, 6e-5, 4e-6, 6e-6, 2.5e-5];

/// Where the coordinates begin: at zero, at a tie, at either end of the range.
pub const BASES: [f64; 9] = [0.0, 0.00005, -0.00005, 0.000005, 12.34565, 9999.9, -9999.9, 1e4, -1e4];

pub fn pick<T: Copy>(random: &mut Random, list: &[T]) -> T {
    list[random.below(list.len() as u64) as usize]
}

pub fn within(c: f64) -> f64 {
    c.clamp(-1e4, 1e4)
}

/// By one or two f64 up or down, now and then.
pub fn nudge(random: &mut Random, c: f64) -> f64 {
    match random.below(8) {
        0 => c.next_up(),
        1 => c.next_down(),
        2 => c.next_up().next_up(),
        3 => c.next_down().next_down(),
        _ => c,
    }
}

pub fn draw(random: &mut Random) -> Mesh {
    match random.below(9) {
        0..=3 => grid(random),
        4 => book(random),
        5 => path(random),
        6 => star(random),
        7 => blocks_by_corners(random),
        _ => apart(random),
    }
}

fn face(random: &mut Random, faces: u64) -> (u32, u32) {
    (random.below(2) as u32, random.below(faces) as u32)
}

/// Polygons between the points of a small grid: most sides are of keys that several have.
fn grid(random: &mut Random) -> Mesh {
    let (step, base) = (pick(random, &STEPS), [0; 3].map(|_| pick(random, &BASES)));
    let points = 2 + random.below(4);
    let faces = pick(random, &[1, 2, 5, 40]);
    let mut mesh = Mesh::empty();
    for _ in 0..1 + random.below(40) {
        let count = pick(random, &[3, 3, 3, 4, 4, 5, 8]);
        let corner = |random: &mut Random, axis: usize| {
            let inward = if base[axis] > 0.0 { -step } else { step };
            let c = base[axis] + inward * random.below(points) as f64;
            within(nudge(random, c))
        };
        let polygon: Vec<Point> = (0..count).map(|_| [0, 1, 2].map(|axis| corner(random, axis))).collect();
        mesh.push(face(random, faces), polygon);
    }
    mesh
}

/// Pages on one segment, in either direction.
fn book(random: &mut Random) -> Mesh {
    let mut mesh = Mesh::empty();
    let pages = pick(random, &[1, 2, 3, 4, 20]);
    let segments = 1 + random.below(5);
    for page in 0..pages * segments {
        let x = (page % segments) as f64 * pick(random, &[0.0, 3.0]);
        let outer = [x + 1.0 + page as f64, random.below(9) as f64 - 4.0, page as f64 / 8.0];
        let mut polygon = vec![[x, 0.0, 0.0], [x, 0.0, 1.0], outer];
        if random.below(2) == 0 {
            polygon.reverse();
        }
        let by = random.below(3) as usize;
        polygon.rotate_left(by);
        mesh.push(face(random, 6), polygon);
    }
    mesh
}

/// Triangles along a line, each in a vertex with the next, their numbers in any order: long chains of joins. Some links are missing.
fn path(random: &mut Random) -> Mesh {
    let gap = pick(random, &[0.0, 0.0, 4e-6, 5e-6, 6e-6, 1e-5]);
    let n = 2 + random.below(60) as usize;
    let mut links: Vec<Vec<Point>> = Vec::new();
    for k in 0..n {
        let x = 2.0 * k as f64;
        let start = if random.below(4) == 0 { x + gap } else { x };
        links.push(vec![[start, 0.0, 0.0], [x + 2.0, 0.0, 0.0], [x + 1.0, 1.0, random.below(3) as f64]]);
    }
    shuffle(random, &mut links);
    let mut mesh = Mesh::empty();
    links.into_iter().for_each(|link| mesh.push(face(random, 3), link));
    mesh
}

pub fn shuffle<T>(random: &mut Random, list: &mut [T]) {
    for i in (1..list.len()).rev() {
        list.swap(i, random.below(i as u64 + 1) as usize);
    }
}

/// All polygons in one vertex, or within a key of it.
fn star(random: &mut Random) -> Mesh {
    let centre = [0; 3].map(|_| pick(random, &BASES));
    let spread = pick(random, &[0.0, 0.0, 1e-6, 4e-6, 1e-5]);
    let mut mesh = Mesh::empty();
    for k in 0..1 + random.below(30) {
        let near = centre.map(|c| within(c + spread * (random.below(3) as f64 - 1.0)));
        let away = |random: &mut Random, c: f64| within(c + if c > 0.0 { -1.0 } else { 1.0 } * (1 + random.below(5) + k) as f64);
        let mut polygon = vec![near];
        (0..2).for_each(|_| polygon.push(centre.map(|c| away(random, c))));
        mesh.push(face(random, 4), polygon);
    }
    mesh
}

/// Blocks in a row, each touching the one before at a corner, an edge, a side or not at all; some wound inward.
fn blocks_by_corners(random: &mut Random) -> Mesh {
    let mut mesh = Mesh::empty();
    let mut low = [0.0; 3];
    for k in 0..1 + random.below(8) as u32 {
        let size = [0; 3].map(|_| 1.0 + random.below(4) as f64 / 4.0);
        block(&mut mesh, k, low, size, random.below(3) == 0);
        let gap = pick(random, &[0.0, 0.0, 0.0, 4e-6, 5e-6, 1e-5, 1.0]);
        let axes = 1 + random.below(3) as usize;
        (0..axes).for_each(|axis| low[axis] += size[axis] + gap);
    }
    if random.below(2) == 0 {
        shuffle(random, &mut mesh.polygons);
    }
    mesh
}

pub fn block(mesh: &mut Mesh, feature: u32, low: Point, size: Point, inward: bool) {
    let corner = |i: usize| [0, 1, 2].map(|axis| low[axis] + if i >> axis & 1 == 1 { size[axis] } else { 0.0 });
    let sides = [[0, 2, 3, 1], [4, 5, 7, 6], [0, 1, 5, 4], [1, 3, 7, 5], [3, 2, 6, 7], [2, 0, 4, 6]];
    for (index, side) in sides.iter().enumerate() {
        let mut points: Vec<Point> = side.iter().map(|i| corner(*i)).collect();
        if inward {
            points.reverse();
        }
        mesh.push((feature, index as u32), points);
    }
}

/// Many bodies, of one polygon each or of a block each.
fn apart(random: &mut Random) -> Mesh {
    let mut mesh = Mesh::empty();
    let count = 1 + random.below(60);
    for k in 0..count {
        let low = [3.0 * k as f64, 0.0, 0.0];
        if random.below(3) == 0 {
            block(&mut mesh, k as u32, low, [1.0; 3], random.below(2) == 0);
        } else {
            mesh.push((7, k as u32), vec![low, [low[0] + 1.0, 0.0, 0.0], [low[0], 1.0, 0.5]]);
        }
    }
    mesh
}

/// A tube bent to a ring, of so many quads along and around: closed, no coordinate a whole number.
pub fn ring(along: usize, around: usize) -> Vec<Vec<Point>> {
    let at = |i: usize, j: usize| {
        let turn = |k: usize, n: usize| (std::f64::consts::TAU * (k % n) as f64 / n as f64).sin_cos();
        let ((s, c), (t, d)) = (turn(i, along), turn(j, around));
        let r = 50.0 + 20.0 * d;
        [r * c, r * s, 20.0 * t]
    };
    let quad = |i: usize, j: usize| vec![at(i, j), at(i + 1, j), at(i + 1, j + 1), at(i, j + 1)];
    (0..along * around).map(|k| quad(k / around, k % around)).collect()
}

/// The outside of a box in squares of one millimetre: closed, every coordinate a whole number.
pub fn squares(size: [usize; 3]) -> Vec<Vec<Point>> {
    let mut list = Vec::new();
    for axis in 0..3 {
        let (u, v) = ((axis + 1) % 3, (axis + 2) % 3);
        for (level, outward) in [(0, false), (size[axis], true)] {
            for k in 0..size[u] * size[v] {
                let (i, j) = (k / size[v], k % size[v]);
                let at = |i: usize, j: usize| {
                    let mut p = [0.0; 3];
                    (p[axis], p[u], p[v]) = (level as f64, i as f64, j as f64);
                    p
                };
                let mut square = vec![at(i, j), at(i + 1, j), at(i + 1, j + 1), at(i, j + 1)];
                if !outward {
                    square.reverse();
                }
                list.push(square);
            }
        }
    }
    list
}

/// Each quad as two triangles.
pub fn triangles(quads: Vec<Vec<Point>>) -> Vec<Vec<Point>> {
    quads.iter().flat_map(|q| [vec![q[0], q[1], q[2]], vec![q[0], q[2], q[3]]]).collect()
}

/// The same polygons, each distinct point at a place of its own, drawn at random.
pub fn scattered(random: &mut Random, polygons: Vec<Vec<Point>>) -> Vec<Vec<Point>> {
    let mut places = std::collections::HashMap::new();
    let mut place = |p: Point| *places.entry(p.map(f64::to_bits)).or_insert_with(|| any_point(random));
    polygons.into_iter().map(|polygon| polygon.into_iter().map(&mut place).collect()).collect()
}

pub fn any_point(random: &mut Random) -> Point {
    [0; 3].map(|_| (random.next() >> 11) as f64 / (1u64 << 53) as f64 * 200.0 - 100.0)
}

/// As a part: a face for each so many polygons.
pub fn part(polygons: Vec<Vec<Point>>, to_a_face: usize) -> Mesh {
    let mut mesh = Mesh::empty();
    polygons.into_iter().enumerate().for_each(|(k, points)| mesh.push((1, (k / to_a_face) as u32), points));
    mesh
}

fn share_nothing(random: &mut Random) -> Vec<Vec<Point>> {
    (0..MOST_POLYGONS).map(|_| (0..4).map(|_| any_point(random)).collect()).collect()
}

fn pages() -> Vec<Vec<Point>> {
    let page = |x: f64| vec![[0.0; 3], [0.0, 0.0, 1.0], [x, 0.5, 1.0], [x, 0.5, 0.0]];
    (1..=MOST_POLYGONS).map(|k| page(k as f64)).collect()
}

fn chain(random: &mut Random) -> Vec<Vec<Point>> {
    let link = |x: f64| vec![[x, 0.0, 0.0], [x + 1.0, 0.0, 0.0], [x, 1.0, 0.0], [x, 2.0, 1.0]];
    let mut list: Vec<_> = (0..MOST_POLYGONS).map(|k| link(k as f64)).collect();
    shuffle(random, &mut list);
    list
}

fn blocks_apart() -> Mesh {
    let mut mesh = Mesh::empty();
    for k in 0..(MOST_POLYGONS / 6) as u32 {
        block(&mut mesh, k, [2.0 * f64::from(k % 26), 2.0 * f64::from(k / 26), 0.0], [1.0; 3], false);
    }
    // a face for each block, so that there are not too many
    mesh.polygons.iter_mut().for_each(|p| p.set_face((p.face().0, 0)));
    mesh
}

/// At the most polygons, each with a name.
pub fn large(random: &mut Random) -> Vec<(&'static str, Mesh)> {
    vec![
        ("a closed mesh of quads", part(ring(64, 64), 16)),
        ("a closed mesh of triangles", part(triangles(ring(64, 32)), 16)),
        ("quads of whole millimetres", part(squares([16, 16, 56]), 16)),
        ("a closed mesh at random places", part(scattered(random, squares([16, 16, 56])), 16)),
        ("quads that share nothing", part(share_nothing(random), 16)),
        ("4,096 quads on one segment", part(pages(), 16)),
        ("a chain in any order", part(chain(random), 16)),
        ("682 blocks apart", blocks_apart()),
    ]
}
