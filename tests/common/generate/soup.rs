//! Polygons at random: no solid, but every surface, shared and equal vertices, ties.
use crate::generate::draw::Draw;
use crate::generate::part::{Kind, Part};
use crate::generate::space::{allowed_direction, turn, V};
use crate::vector::{cross, length, normal_sum, plus, times};

pub fn soup(d: &mut Draw, part: &mut Part) {
    let count = match d.below(10) {
        0 => 1,
        1 => d.from(40, 120),
        _ => d.from(2, 40),
    };
    let faces = d.pick(&[1, 2, 4, 10, 100]);
    let reach = d.pick(&[0.01, 1.0, 5.0, 20.0, 100.0, 9000.0]);
    // Few distinct coordinates make shared sides and faces at the same distance likely.
    let grid = d.pick(&[0.0, 0.0, 0.5, 0.25]) * reach;
    let kinds: Vec<Kind> = (0..d.from(1, 4)).map(|_| draw_kind(d, reach)).collect();
    for _ in 0..count {
        let vertices = draw_polygon(d, part, reach, grid);
        let face = (d.below(2) as u32, d.below(faces) as u32);
        let kind = if d.one_in(2) { Kind::Plane } else { d.pick(&kinds) };
        part.push(face, kind, vertices);
    }
}

fn draw_kind(d: &mut Draw, reach: f64) -> Kind {
    let origin = point(d, reach, 0.0);
    let axis = match d.below(3) {
        0 => [0.0, 0.0, d.pick(&[1.0, -1.0, 0.5, 2.0])],
        _ => allowed_direction(point(d, 1.5, 0.0)),
    };
    match d.below(6) {
        0 => Kind::Plane,
        1 => Kind::Revolved(origin, axis),
        2 => Kind::Other,
        _ => Kind::Cylinder(origin, axis, d.pick(&[0.001, 0.3, 0.5, 0.7, 1.0, 5.0, 1e4])),
    }
}

fn point(d: &mut Draw, reach: f64, grid: f64) -> V {
    [0; 3].map(|_| {
        let c = d.between(-reach, reach);
        if grid > 0.0 { (c / grid).round() * grid } else { c }
    })
}

fn draw_polygon(d: &mut Draw, part: &Part, reach: f64, grid: f64) -> Vec<V> {
    if !part.polygons.is_empty() && d.one_in(3) {
        return from_earlier(d, part, reach);
    }
    let vertices = match d.below(5) {
        0 => (0..d.from(3, 6)).map(|_| point(d, reach, grid)).collect(),
        1 => (0..d.from(7, 64)).map(|_| point(d, reach, 0.0)).collect(),
        _ => round(d, reach, grid),
    };
    if is_polygon(&vertices) { vertices } else { triangle(d, reach) }
}

fn triangle(d: &mut Draw, reach: f64) -> Vec<V> {
    loop {
        let vertices: Vec<V> = (0..3).map(|_| point(d, reach, 0.0)).collect();
        if is_polygon(&vertices) {
            return vertices;
        }
    }
}

/// Flat and convex, or with its corners in and out as in a star.
fn round(d: &mut Draw, reach: f64, grid: f64) -> Vec<V> {
    let centre = point(d, reach * 0.5, grid);
    let (a, b) = match d.below(3) {
        0 => ([1.0, 0.0, 0.0], [0.0, 1.0, 0.0]),
        1 => ([0.0, 1.0, 0.0], [1.0, 0.0, 0.0]),
        _ => {
            let a = point(d, 0.7, 0.0);
            (a, cross(a, point(d, 1.0, 0.0)))
        }
    };
    let sides = d.pick(&[3, 4, 4, 5, 6, 8, 12, 32, 64]);
    let star = d.pick(&[1.0, 1.0, 1.0, 0.5]);
    let radius = reach * d.between(0.05, 0.5);
    (0..sides)
        .map(|i| {
            let (c, s) = turn(i as f64 / sides as f64);
            let r = if i % 2 == 0 { radius } else { radius * star };
            plus(centre, plus(times(a, r * c), times(b, r * s)))
        })
        .collect()
}

/// An earlier polygon again: the same, turned over, moved along, or with a side of no length.
fn from_earlier(d: &mut Draw, part: &Part, reach: f64) -> Vec<V> {
    let mut vertices = part.polygons[d.below(part.polygons.len())].vertices.clone();
    match d.below(6) {
        0 => {}
        1 => vertices.reverse(),
        2 | 3 => {
            let by = if d.one_in(2) { [0.0, 0.0, reach * 0.1] } else { point(d, reach * 0.2, 0.0) };
            if vertices.iter().all(|v| plus(*v, by).iter().all(|c| c.abs() <= 1e4)) {
                vertices.iter_mut().for_each(|v| *v = plus(*v, by));
            }
            if d.one_in(2) {
                vertices.reverse();
            }
        }
        4 => {
            let i = d.below(vertices.len());
            if vertices.len() < 64 {
                vertices.insert(i, vertices[i]);
            }
        }
        _ => {
            // Nearly the same: ties of the keys but not of the planes.
            let by = d.pick(&[1e-12, 1e-9, 1e-6, 4e-5, 6e-5]);
            let i = d.below(vertices.len());
            vertices[i][d.below(3)] += by;
        }
    }
    if is_polygon(&vertices) { vertices } else { triangle(d, reach) }
}

/// Newell's sum is not too short, as `Polygon::new` asks, and all is within range.
fn is_polygon(v: &[V]) -> bool {
    length(normal_sum(v)) >= 1e-13
        && v.iter().all(|p| p.iter().all(|c| c.abs() <= 1e4))
}
