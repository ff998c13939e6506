//! Points and directions in space.

pub type Point = [f64; 3];

pub fn add(a: Point, b: Point) -> Point {
    [a[0] + b[0], a[1] + b[1], a[2] + b[2]]
}

pub fn sub(a: Point, b: Point) -> Point {
    [a[0] - b[0], a[1] - b[1], a[2] - b[2]]
}

pub fn scale(a: Point, k: f64) -> Point {
    [a[0] * k, a[1] * k, a[2] * k]
}

pub fn dot(a: Point, b: Point) -> f64 {
    a[0] * b[0] + a[1] * b[1] + a[2] * b[2]
}

pub fn cross(a: Point, b: Point) -> Point {
    [a[1] * b[2] - a[2] * b[1], a[2] * b[0] - a[0] * b[2], a[0] * b[1] - a[1] * b[0]]
}

pub fn length(a: Point) -> f64 {
    dot(a, a).sqrt()
}

/// Of length 1; zero stays. Very large and very small numbers are brought near 1 first.
pub fn unit(a: Point) -> Point {
    let most = a.iter().fold(0.0, |m: f64, x| m.max(x.abs()));
    if most == 0.0 || !most.is_finite() {
        return a;
    }
    let near = a.map(|x| x / most);
    let length = length(near);
    near.map(|x| x / length)
}

/// From a to b: a at 0, b at 1.
pub fn between(a: Point, b: Point, t: f64) -> Point {
    add(a, scale(sub(b, a), t))
}

pub fn mean(points: &[Point]) -> Point {
    let sum = points.iter().fold([0.0; 3], |sum, &p| add(sum, p));
    scale(sum, 1.0 / points.len() as f64)
}

/// The least and the greatest of each coordinate; zeros where there are no points.
pub fn bounds(points: impl Iterator<Item = Point>) -> [Point; 2] {
    let mut bounds: Option<[Point; 2]> = None;
    for p in points {
        let [lo, hi] = bounds.unwrap_or([p, p]);
        bounds = Some([[0, 1, 2].map(|i| lo[i].min(p[i])), [0, 1, 2].map(|i| hi[i].max(p[i]))]);
    }
    bounds.unwrap_or_default()
}

/// The corners' normal, twice the area long: the sum over the sides, so that corners off a common plane count too.
pub fn normal(corners: &[Point]) -> Point {
    let first = corners[0];
    let next = corners[1..].iter().zip(&corners[2..]);
    next.fold([0.0; 3], |sum, (&b, &c)| add(sum, cross(sub(b, first), sub(c, first))))
}
