//! Parts of 9 to 4,096 polygons that are hard on a tree of boxes: polygons of one box or of one middle, flat boxes, boxes that share a bound, sizes that
//! differ by powers of two, polygons so small that the side test's tolerance reaches past their boxes, and the same polygon under several numbers.
use crate::mesh::{Mesh, Point, MOST_POLYGONS, MOST_VERTICES};
use crate::random::Random;
use crate::shapes::{any_point, part, pick, ring, shuffle, squares, triangles, within};

/// A part of at most so many polygons is scanned; any other is walked.
pub const SCANNED: usize = 16;

/// 9 to 4,096, most often few, and often about the number up to which a part is scanned.
pub fn count(random: &mut Random) -> usize {
    let mut below = |n: usize| random.below(n as u64) as usize;
    match below(1024) {
        0 => MOST_POLYGONS,
        1 => 1001 + below(3095),
        2..=20 => 101 + below(900),
        21..=400 => SCANNED - 1 + below(4),
        401..=600 => 9 + below(12),
        _ => 9 + below(92),
    }
}

pub fn draw(random: &mut Random) -> Mesh {
    let n = count(random);
    let polygons = match random.below(10) {
        0 => one_box(random, n),
        1 => one_middle(random, n),
        2 => plates(random, n),
        3 | 4 => tiny(random, n),
        5 => powers(random, n),
        6 => pages(random, n),
        7 => anywhere(random, n),
        8 => closed(random, n),
        _ => stairs(random, n),
    };
    finished(random, polygons, n)
}

/// The first 15 to 18 polygons of a part; where it has fewer, some once more.
pub fn about_scanned(random: &mut Random, mesh: &mut Mesh) {
    let n = SCANNED - 1 + random.below(4) as usize;
    mesh.polygons.truncate(n);
    while (1..n).contains(&mesh.polygons.len()) {
        let k = random.below(mesh.polygons.len() as u64) as usize;
        let mut copy = mesh.polygons[k].clone();
        if random.below(2) == 0 {
            let by = pick(random, &[0.5, -2.0, 1e-3]);
            copy.points.iter_mut().for_each(|p| p[k % 3] = within(p[k % 3] + by));
        }
        mesh.polygons.push(copy);
    }
}

/// Of these polygons just n, some of them several times, in any order and faces.
fn finished(random: &mut Random, mut polygons: Vec<Vec<Point>>, n: usize) -> Mesh {
    let again = pick(random, &[0, 0, 1, n / 4]);
    polygons.truncate(n - again.min(n - 1));
    while polygons.len() < n {
        let k = random.below(polygons.len() as u64) as usize;
        let mut copy = polygons[k].clone();
        match random.below(4) {
            0 => copy.reverse(),
            1 => copy.rotate_left(1),
            _ => {}
        }
        polygons.push(copy);
    }
    if random.below(3) != 0 {
        shuffle(random, &mut polygons);
    }
    polygons.iter_mut().flatten().for_each(|p| *p = p.map(within));
    let mut mesh = part(polygons, pick(random, &[1, 2, 5, 8]).max(n.div_ceil(1000)));
    while mesh.vertices() > MOST_VERTICES {
        mesh.polygons.pop();
    }
    mesh
}

fn triangle(at: Point, size: f64, axis: usize) -> Vec<Point> {
    let mut list = vec![[0.0; 3]; 3];
    list[1][(axis + 1) % 3] = size;
    list[2][(axis + 2) % 3] = size;
    list.iter().map(|p| [0, 1, 2].map(|k| at[k] + p[k])).collect()
}

fn square(at: Point, size: f64, axis: usize) -> Vec<Point> {
    let mut list = triangle(at, size, axis);
    let mut far = list[1];
    far[(axis + 2) % 3] += size;
    list.insert(2, far);
    list
}

/// All in one place: no cut tells them apart.
fn one_box(random: &mut Random, n: usize) -> Vec<Vec<Point>> {
    let (at, size) = (any_point(random), pick(random, &[1.0, 0.01, 1e-4]));
    let axis = random.below(3) as usize;
    let one = if random.below(2) == 0 { triangle(at, size, axis) } else { square(at, size, axis) };
    let turned = |k: usize| {
        let mut copy = one.clone();
        copy.rotate_left(k % one.len());
        if k % 5 == 4 {
            copy.reverse();
        }
        copy
    };
    (0..n).map(turned).collect()
}

/// Squares and turned squares about one middle, of sizes that grow.
fn one_middle(random: &mut Random, n: usize) -> Vec<Vec<Point>> {
    let (at, step) = (pick(random, &[[0.0; 3], [5.0, -3.0, 0.5]]), pick(random, &[0.5, 1e-3, 1e-6]));
    let about = |k: usize| {
        let (r, axis) = (step * (1 + k / 3) as f64, k % 3);
        let corner = |u: f64, v: f64, w: f64| {
            let mut p = at;
            p[(axis + 1) % 3] += r * u;
            p[(axis + 2) % 3] += r * v;
            p[axis] += r * w;
            p
        };
        let lean = if k % 2 == 0 { 0.0 } else { 0.5 };
        vec![corner(-1.0, -1.0, -lean), corner(1.0, -1.0, lean), corner(1.0, 1.0, lean), corner(-1.0, 1.0, -lean)]
    };
    (0..n).map(about).collect()
}

/// Parallel plates of squares across an axis: flat boxes, of which many share bounds, and ties where two plates lie in one plane.
fn plates(random: &mut Random, n: usize) -> Vec<Vec<Point>> {
    let (side, axis) = (1 + random.below(6) as usize, random.below(3) as usize);
    let (size, between) = (pick(random, &[1.0, 0.3, 1e-3]), pick(random, &[1.0, 0.0, 1e-6, 2e-6, 0.25]));
    let off = pick(random, &[0.0, 0.0, 0.5]) * size;
    let of_plate = |k: usize| {
        let (plate, i) = (k / (side * side), k % (side * side));
        let mut at = [0.0; 3];
        at[axis] = between * (plate / 2) as f64;
        at[(axis + 1) % 3] = size * (i / side) as f64 + off * (plate % 2) as f64;
        at[(axis + 2) % 3] = size * (i % side) as f64;
        let mut one = square(at, size, axis);
        if plate % 2 == 1 {
            one.reverse();
        }
        one
    };
    (0..n).map(of_plate).collect()
}

/// So small that a ray may pass beside a box and still be inside by the side test.
fn tiny(random: &mut Random, n: usize) -> Vec<Vec<Point>> {
    let size = pick(random, &[1e-3, 3e-4, 1e-4, 1e-5, 2e-6]);
    let apart = pick(random, &[0.0, 1.0, 3.0, 100.0]) * size + pick(random, &[0.0, 1e-6, 1e-5]);
    let base = pick(random, &[[0.0; 3], [1.0, 2.0, 3.0], [-9999.0, 5000.0, 0.25]]);
    let slanted = random.below(2) == 0;
    let one = |k: usize| {
        let at = [base[0] + apart * (k % 5) as f64, base[1] + apart * (k / 5 % 5) as f64, base[2] + apart * (k / 25) as f64];
        let mut points = if k % 2 == 0 { triangle(at, size, k % 3) } else { square(at, size, k % 3) };
        if slanted {
            points.iter_mut().for_each(|p| p[k % 3] += 0.5 * (p[(k + 1) % 3] - at[(k + 1) % 3]));
        }
        points
    };
    (0..n).map(one).collect()
}

/// Along an axis, each half as far out as the one before: a cut in the middle takes off one at a time.
fn powers(random: &mut Random, n: usize) -> Vec<Vec<Point>> {
    let (axis, size) = (random.below(3) as usize, pick(random, &[1.0, 0.1, 1e-3]));
    let (far, by) = (pick(random, &[9000.0, 1.0, -1e-3]), pick(random, &[0.5f64, 0.7, 0.9]));
    let one = |k: usize| {
        let mut at = [0.0; 3];
        at[axis] = far * by.powi(k as i32);
        triangle(at, size, axis)
    };
    (0..n).map(one).collect()
}

/// Long ones about one line: every box holds nearly every other.
fn pages(random: &mut Random, n: usize) -> Vec<Vec<Point>> {
    let long = pick(random, &[1.0, 50.0, 1e-3]);
    let page = |k: usize| {
        let (s, c) = (0.7 * k as f64).sin_cos();
        let r = long * (1.0 + (k % 7) as f64 / 8.0);
        vec![[0.0; 3], [0.0, 0.0, long], [r * c, r * s, long], [r * c, r * s, 0.0]]
    };
    (0..n).map(page).collect()
}

fn anywhere(random: &mut Random, n: usize) -> Vec<Vec<Point>> {
    let reach = pick(random, &[1.0, 0.1, 0.01, 1e-4]);
    let one = |_| {
        let at = any_point(random);
        (0..3).map(|_| any_point(random)).map(|p| [0, 1, 2].map(|k| at[k] + reach * p[k])).collect()
    };
    (0..n).map(one).collect()
}

/// At least n polygons of a ring or of a block of squares, in their own order.
fn closed(random: &mut Random, n: usize) -> Vec<Vec<Point>> {
    let around = 3 + random.below(9) as usize;
    let list = match random.below(3) {
        0 => ring(n.div_ceil(around).max(3), around),
        1 => triangles(ring(n.div_ceil(2 * around).max(3), around)),
        _ => {
            let side = ((n as f64 / 6.0).sqrt().ceil() as usize).max(2);
            squares([side, side, side])
        }
    };
    debug_assert!(list.len() >= n);
    list
}

/// Steps of whole millimetres, treads and risers: each box touches the next.
fn stairs(random: &mut Random, n: usize) -> Vec<Vec<Point>> {
    let (size, base) = (pick(random, &[1.0, 0.5, 1e-3]), pick(random, &[0.0, -2.0, 1000.0]));
    let step = |k: usize| {
        let at = |i: usize| base + size * i as f64;
        if k % 2 == 0 {
            square([at(k / 2), base, at(k / 2)], size, 2)
        } else {
            square([at(k / 2 + 1), base, at(k / 2)], size, 0)
        }
    };
    (0..n).map(step).collect()
}
