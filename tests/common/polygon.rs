//! Areas, planes and centroids of polygons, as document 01 and the Rust have them.
use crate::mesh::{Point, Polygon};
use crate::vector::{cross, dot, length, minus, normal_sum, plus, times};

pub fn area(v: &[Point]) -> f64 {
    (1..v.len() - 1).fold(0.0, |sum, i| sum + length(cross(minus(v[i], v[0]), minus(v[i + 1], v[0]))) * 0.5)
}

/// Normal and w.
pub fn plane(polygon: &Polygon) -> (Point, f64) {
    let v = &polygon.points;
    let sum = normal_sum(v);
    let normal = sum.map(|c| c / length(sum));
    let middle = v.iter().fold([0.0; 3], |s, p| plus(s, *p)).map(|c| c / v.len() as f64);
    (normal, dot(normal, middle))
}

/// dfm.rs's own: times one over n.
pub fn centroid(v: &[Point]) -> Point {
    times(v.iter().fold([0.0; 3], |s, p| plus(s, *p)), 1.0 / v.len() as f64)
}

/// Its own box by item 7 of document 02, lowest and highest: the coordinates of its vertices, each moved 1e-6 outward, and 1e-9 more by the slab formula.
pub fn own_box(v: &[Point]) -> [Point; 2] {
    let most = |k: usize, f: fn(f64, f64) -> f64| v.iter().fold(v[0][k], |c, p| f(c, p[k]));
    [[0, 1, 2].map(|k| most(k, f64::min) - 1e-6 - 1e-9), [0, 1, 2].map(|k| most(k, f64::max) + 1e-6 + 1e-9)]
}
