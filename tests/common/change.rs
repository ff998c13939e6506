//! Changes to a body that leave its file readable: what a modeller may have done to it, and what is at the edge of a rule.
use crate::mesh::{Mesh, Point, Polygon, MOST_POINTS};
use crate::random::Random;
use crate::shapes::{nudge, pick, shuffle, within};

/// A changed copy; the mesh itself where there is nothing to change or the change leaves what is allowed.
pub fn changed(random: &mut Random, mesh: &Mesh) -> Mesh {
    let mut copy = mesh.clone();
    if copy.polygons.is_empty() {
        return copy;
    }
    match random.below(16) {
        0 => again(random, &mut copy),
        1 | 2 => on_a_side(random, &mut copy),
        3 | 4 => point_twice(random, &mut copy),
        5 | 6 => ties(random, &mut copy),
        7 => to_an_end(random, &mut copy),
        8 => touching_copy(random, &mut copy),
        9 => copies_apart(random, &mut copy),
        10 => other_faces(random, &mut copy),
        11 => flat(random, &mut copy),
        12 => shaken(random, &mut copy),
        13 => turned_over(random, &mut copy),
        14 => minus_zeros(random, &mut copy),
        _ => faces_at_the_limit(random, &mut copy),
    }
    if copy.is_allowed() {
        copy
    } else {
        mesh.clone()
    }
}

fn any<'a, T>(random: &mut Random, list: &'a mut [T]) -> &'a mut T {
    let i = random.below(list.len() as u64) as usize;
    &mut list[i]
}

/// A polygon once or several times more, as it is or turned over.
fn again(random: &mut Random, mesh: &mut Mesh) {
    for _ in 0..1 + random.below(3) {
        let mut copy = any(random, &mut mesh.polygons).clone();
        if random.below(2) == 0 {
            copy.points.reverse();
        }
        let at = random.below(mesh.polygons.len() as u64 + 1) as usize;
        mesh.polygons.insert(at, copy);
    }
}

/// Triangles on a side that is there, so that three and more have it.
fn on_a_side(random: &mut Random, mesh: &mut Mesh) {
    let polygon = any(random, &mut mesh.polygons);
    let (i, n) = (random.below(polygon.points.len() as u64) as usize, polygon.points.len());
    let ends = [polygon.points[i], polygon.points[(i + 1) % n]];
    for _ in 0..1 + random.below(2) {
        let tip = ends[0].map(|c| within(c + random.below(9) as f64 - 4.5));
        let [a, b] = if random.below(2) == 0 { ends } else { [ends[1], ends[0]] };
        let at = random.below(mesh.polygons.len() as u64 + 1) as usize;
        mesh.polygons.insert(at, Polygon::new((99, 0), vec![a, b, tip]));
    }
}

/// A point twice in a row or twice in one polygon, the second a key's part away.
fn point_twice(random: &mut Random, mesh: &mut Mesh) {
    for _ in 0..1 + random.below(3) {
        let polygon = any(random, &mut mesh.polygons);
        if polygon.points.len() == MOST_POINTS {
            continue;
        }
        let n = polygon.points.len() as u64;
        let i = random.below(n) as usize;
        let off = pick(random, &[0.0, 0.0, 1e-6, 4e-5, 5e-5, 6e-5]);
        let mut near = polygon.points[i];
        near[random.below(3) as usize] += off;
        let at = if random.below(2) == 0 { i + 1 } else { random.below(n + 1) as usize };
        polygon.points.insert(at, near.map(within));
    }
}

/// Coordinates at the halves between two keys of 1e4 or of 1e5, or a few f64 beside them: the same for all that are equal now, or for some.
fn ties(random: &mut Random, mesh: &mut Mesh) {
    let scale = pick(random, &[1e4, 1e5]);
    let share = pick(random, &[1, 1, 4]);
    let beside = random.below(2) == 0;
    let axes = 1 + random.below(3) as usize;
    for point in mesh.points_mut() {
        for c in &mut point[..axes] {
            if random.below(share) == 0 {
                let half = ((*c * scale).floor() + 0.5) / scale;
                *c = within(if beside { nudge(random, half) } else { half });
            }
        }
    }
}

/// Moved until a coordinate is at an end of the range, or nearly; or everything far out put on the end.
fn to_an_end(random: &mut Random, mesh: &mut Mesh) {
    let axis = random.below(3) as usize;
    let sign: f64 = pick(random, &[1.0, -1.0]);
    let end = 1e4 * sign;
    let furthest = mesh.points().map(|p| p[axis] * sign).fold(f64::MIN, f64::max) * sign;
    let short = pick(random, &[0.0, 0.0, 5e-5, 5e-6, 4e-5, 1e-4]) * sign;
    let onto = random.below(3) == 0;
    for point in mesh.points_mut() {
        let c = &mut point[axis];
        if onto {
            *c = if *c * end > 0.0 { end - short } else { *c };
        } else {
            *c = within(*c + (end - short - furthest));
        }
    }
}

/// The whole again, moved so that a point of it comes to lie on another, or nearly.
fn touching_copy(random: &mut Random, mesh: &mut Mesh) {
    let mut copy = mesh.clone();
    let corner = |random: &mut Random, mesh: &mut Mesh| {
        let polygon = any(random, &mut mesh.polygons);
        *any(random, &mut polygon.points)
    };
    let (a, b): (Point, Point) = (corner(random, mesh), corner(random, mesh));
    let off = pick(random, &[0.0, 0.0, 4e-6, 5e-6, 6e-6]);
    for point in copy.points_mut() {
        (0..3).for_each(|axis| point[axis] += a[axis] - b[axis] + off);
    }
    mesh.polygons.append(&mut copy.polygons);
    if random.below(2) == 0 {
        shuffle(random, &mut mesh.polygons);
    }
}

fn copies_apart(random: &mut Random, mesh: &mut Mesh) {
    let axis = random.below(3) as usize;
    let (low, high) = mesh.points().fold((f64::MAX, f64::MIN), |(low, high), p| (low.min(p[axis]), high.max(p[axis])));
    let whole = mesh.clone();
    for k in 1..2 + random.below(6) {
        let mut copy = whole.clone();
        copy.points_mut().for_each(|p| p[axis] += k as f64 * (high - low + 1.0));
        mesh.polygons.append(&mut copy.polygons);
    }
    if random.below(2) == 0 {
        shuffle(random, &mut mesh.polygons);
    }
}

/// Face numbers that agree in one of the two, are turned round, or have the same sum.
fn other_faces(random: &mut Random, mesh: &mut Mesh) {
    let faces = pick(random, &[1, 2, 3, 30]);
    let high = pick(random, &[0, 0, u32::MAX - 40, 1 << 31]);
    for polygon in &mut mesh.polygons {
        polygon.set_face((high + random.below(faces) as u32, random.below(faces) as u32));
    }
}

/// A polygon in one point, on a line, or of a Newell's sum of about 1e-14, which is 2e-7 times the height of its second point.
fn flat(random: &mut Random, mesh: &mut Mesh) {
    let kind = random.below(3);
    let polygon = any(random, &mut mesh.polygons);
    let start = if kind == 2 { [0.0; 3] } else { polygon.points[0] };
    for (k, point) in polygon.points.iter_mut().enumerate() {
        *point = start;
        match kind {
            0 => {}
            1 => point[0] = within(start[0].floor() + k as f64),
            _ => (point[0], point[1]) = (1e-7 * k as f64, if k == 1 { (0..3).fold(0.5e-7, |y, _| nudge(random, y)) } else { 0.0 }),
        }
    }
}

/// Points off by about half a key, each by itself.
fn shaken(random: &mut Random, mesh: &mut Mesh) {
    let by = pick(random, &[1e-9, 4e-6, 5e-6, 6e-6, 4e-5, 5e-5, 6e-5]);
    for point in mesh.points_mut() {
        point.iter_mut().for_each(|c| *c = within(*c + by * (random.below(3) as f64 - 1.0)));
    }
}

/// Mirrored, each polygon begun elsewhere, in another order.
fn turned_over(random: &mut Random, mesh: &mut Mesh) {
    let signs = [0; 3].map(|_| pick(random, &[1.0, -1.0]));
    for polygon in &mut mesh.polygons {
        let by = random.below(polygon.points.len() as u64) as usize;
        polygon.points.rotate_left(by);
        polygon.points.iter_mut().for_each(|p| (0..3).for_each(|axis| p[axis] *= signs[axis]));
    }
    shuffle(random, &mut mesh.polygons);
}

/// Zeros and all that rounds to zero, with a minus sign.
fn minus_zeros(random: &mut Random, mesh: &mut Mesh) {
    let tiny = pick(random, &[0.0, 5e-324, 1e-9, 4.9e-6, 4.9e-5]);
    for c in mesh.points_mut().flatten().filter(|c| c.abs() <= tiny) {
        *c = pick(random, &[-0.0, 0.0, -tiny, tiny]);
    }
}

/// Triangles until there are 1,024 faces or one more.
fn faces_at_the_limit(random: &mut Random, mesh: &mut Mesh) {
    if random.below(8) != 0 {
        return other_faces(random, mesh);
    }
    let faces: std::collections::HashSet<_> = mesh.polygons.iter().map(|p| p.face()).collect();
    let wanted = pick(random, &[1023, 1024, 1025, 1026]);
    for k in 0..wanted - faces.len().min(wanted) {
        let x = k as f64;
        mesh.push((u32::MAX, k as u32), vec![[x, 0.0, 0.0], [x + 1.0, 0.0, 0.0], [x, 1.0, 0.0]]);
    }
}
