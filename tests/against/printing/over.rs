//! Undersides: at the limit of what hangs over, about on the build plate, about as large as counts; and bores whose tops bridge or not.
use crate::printing::fit::{beside, SLACK};
use crate::printing::{jobs, ups};
use common::bores::{put, Axis, Frame, Wall};
use common::mesh::{Mesh, Point};
use common::random::Random;
use common::shapes::{block, pick, shuffle};
use oracle::math::v3;
use oracle::sine::of_tenths;
use std::f64::consts::TAU;

/// A rectangle that faces down.
fn down(low: [f64; 2], size: [f64; 2], z: f64) -> Vec<Point> {
    let [x, y] = low;
    let (right, back) = (x + size[0], y + size[1]);
    vec![[x, y, z], [x, back, z], [right, back, z], [right, y, z]]
}

/// An underside from which up leans by the sine of the limit, with the slack or without, or by a few f64 less or more; far below it a foot.
pub fn at_limit(random: &mut Random, tenths: u32, slack: bool, steps: i32) -> Mesh {
    let mut mesh = Mesh::empty();
    mesh.push((1, 0), down([0.0; 2], [4.0, 2.0], 3.0));
    block(&mut mesh, 2, [0.0, 0.0, -60.0], [1.0; 3], false);
    mesh.job = jobs::draw(random);
    let mut dip = of_tenths(tenths as usize) + if slack { SLACK } else { 0.0 };
    for _ in 0..steps.abs() {
        dip = if steps > 0 { dip.next_up() } else { dip.next_down() };
    }
    let up = ups::with_cosine(random, v3(0.0, 0.0, -1.0), -dip.min(1.0));
    jobs::change(&mut mesh.job, |print| (print.overhang, print.up) = (Some(tenths), up));
    mesh
}

/// Undersides with corners about as far above the lowest point as still counts as on the plate, up along z.
pub fn plate(random: &mut Random) -> Mesh {
    let mut mesh = Mesh::empty();
    let (base, high) = (pick(random, &[0.0, -5.0, 1000.0, 0.1]), pick(random, &[0.5, 1.0, 1.0f64.next_up(), 3.0, 300.0]));
    let top: f64 = base + high;
    block(&mut mesh, 1, [-9.0, 0.0, base], [2.0, 2.0, high], false);
    let limit = base + 1e-6 * (top - base).max(1.0);
    for k in 0..1 + random.below(3) {
        let mut points = down([3.0 * k as f64, 0.0], [2.0, 1.0], base);
        let level = beside(random, limit);
        let whole = random.below(2) == 0;
        for point in &mut points {
            let other = pick(random, &[base, limit.next_down(), level]);
            point[2] = if whole { level } else { other };
        }
        mesh.push((2, k as u32), points);
    }
    mesh.job = jobs::draw(random);
    let length = pick(random, &[1.0, 1.0, 0.5, 2.0, 1.25]);
    let tenths = pick(random, &[0, 300, 450, 899]);
    jobs::change(&mut mesh.job, |print| (print.overhang, print.up) = (Some(tenths), [0.0, 0.0, length]));
    mesh
}

/// Undersides of about the least area that counts, each of one polygon or of several, up along z. Far below them a foot.
pub fn small(random: &mut Random) -> Mesh {
    let mut mesh = Mesh::empty();
    for face in 0..1 + random.below(4) {
        let pieces = 1 + random.below(4) as usize;
        let wide = beside(random, 0.01 / pieces as f64);
        for k in 0..pieces {
            let wide = if k == 0 { beside(random, wide) } else { wide };
            // as wide as it is large
            mesh.push((1, face as u32), down([0.0, 2.0 * face as f64], [wide, 1.0], 3.0 + k as f64));
        }
    }
    shuffle(random, &mut mesh.polygons);
    over_a_foot(random, mesh)
}

/// Up along z.
fn over_a_foot(random: &mut Random, mut mesh: Mesh) -> Mesh {
    block(&mut mesh, 9, [0.0, 0.0, -60.0], [1.0; 3], false);
    mesh.job = jobs::draw(random);
    let tenths = pick(random, &[0, 300, 450, 600]);
    jobs::change(&mut mesh.job, |print| (print.overhang, print.up) = (Some(tenths), [0.0, 0.0, 1.0]));
    mesh
}

/// Numbers and another order of them in which the sum of what they make has another text of one decimal.
pub fn tie(random: &mut Random, count: usize, made: fn(f64) -> f64) -> (Vec<f64>, Vec<usize>) {
    let text = |sum: f64| format!("{sum:.1}");
    loop {
        let mut list: Vec<f64> = (1..count).map(|_| 0.01 + random.below(1 << 50) as f64 / (1u64 << 48) as f64).collect();
        let sum: f64 = list.iter().sum();
        let half = ((sum * 10.0).ceil() + 0.5) / 10.0 + 0.1 * random.below(20) as f64;
        list.push(beside(random, half - sum));
        let mut order: Vec<usize> = (0..count).collect();
        shuffle(random, &mut order);
        let other = order.iter().fold(0.0, |sum, k| sum + made(list[*k]));
        if text(other) != text(list.iter().fold(0.0, |sum, x| sum + made(*x))) {
            return (list, order);
        }
    }
}

/// Undersides whose whole area is about a half of its last decimal, so that the text hangs on the order in which they are added: faces by their ids, or the
/// polygons of one face.
pub fn sums(random: &mut Random) -> Mesh {
    let mut mesh = Mesh::empty();
    let count = 3 + random.below(6) as usize;
    let (areas, order) = tie(random, count, |wide| wide);
    let of_one_face = random.below(3) == 0;
    let by: Vec<usize> = if of_one_face { (0..areas.len()).collect() } else { order };
    for k in by {
        let face = if of_one_face { 0 } else { k as u32 };
        mesh.push((1, face), down([0.0, 0.0], [areas[k], 1.0], 3.0 + k as f64));
    }
    over_a_foot(random, mesh)
}

/// A level bore of more or fewer facets, wide or not, through a block, and up across it, along it, or leaning; now and then with other polygons of its face.
pub fn bored(random: &mut Random) -> Mesh {
    let mut mesh = Mesh::empty();
    let frame = Frame::draw(random);
    let (n, radius) = (pick(random, &[40, 33, 36, 31, 24]), pick(random, &[5.0, 5.0, 2.0, 8.0]));
    let wall = Wall {
        frame,
        angles: (0..n).map(|k| TAU * f64::from(k) / f64::from(n)).collect(),
        closed: random.below(6) != 0,
        radius,
        heights: [0.0, pick(random, &[1.0, 6.0])],
        inward: random.below(8) != 0,
        triangles: random.below(4) == 0,
    };
    let said = pick(random, &[radius, 5.0, 5.0f64.next_up(), 5.0f64.next_down(), 1.0]);
    put(&mut mesh, (1, 0), wall.polygons(), Some(Axis::draw(random, &frame, said)));
    if random.below(3) == 0 {
        let by = frame.at(0.0, 0.0, 0.0);
        let more = down([by[0], by[1]], [3.0, 1.0], by[2] - 20.0);
        put(&mut mesh, (1, random.below(2) as u32), vec![more], None);
    }
    mesh.job = jobs::draw(random);
    let cosine = pick(random, &[0.0, 0.0, 0.1, -0.1, 0.05, 0.5, 1.0]);
    let cosine = beside(random, cosine);
    let up = ups::with_cosine(random, ups::vector(frame.z), cosine);
    let tenths = pick(random, &[0, 300, 450, 600]);
    jobs::change(&mut mesh.job, |print| (print.overhang, print.up) = (Some(tenths), up));
    mesh
}
