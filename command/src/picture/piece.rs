//! A flat piece of a facet as it lies in the picture.
use super::vector::{between, dot, sub, Point};

/// Depths that differ by less, in pixels, count as the same.
pub const SAME: f64 = 5e-3;
/// What covers less of the picture, in square pixels, is not seen.
const SMALL: f64 = 1e-3;
/// Planes that are seen at a smaller angle show no area.
const STEEP: f64 = 1e-4;

#[derive(Clone)]
pub struct Piece {
    pub facet: usize,
    pub colour: [u8; 3],
    /// At least three, in a plane, without inward corners.
    pub corners: Vec<Point>,
    /// Of the plane, of length 1, in the picture's coordinates.
    pub normal: Point,
    offset: f64,
    pub lo: [f64; 2],
    pub hi: [f64; 2],
    /// 1 where the corners run one way round in the picture, -1 the other.
    way: f64,
}

impl Piece {
    /// None where nothing of it is seen.
    pub fn new(facet: usize, colour: [u8; 3], corners: Vec<Point>, normal: Point) -> Option<Piece> {
        let area = area(&corners);
        if area.abs() < SMALL || normal[2].abs() < STEEP {
            return None;
        }
        let least = |i: usize| corners.iter().fold(f64::INFINITY, |m, p| m.min(p[i]));
        let most = |i: usize| corners.iter().fold(f64::NEG_INFINITY, |m, p| m.max(p[i]));
        let (lo, hi) = ([least(0), least(1)], [most(0), most(1)]);
        let offset = dot(normal, corners[0]);
        Some(Piece { facet, colour, corners, normal, offset, lo, hi, way: area.signum() })
    }

    /// The depth of its plane.
    pub fn depth(&self, x: f64, y: f64) -> f64 {
        (self.offset - self.normal[0] * x - self.normal[1] * y) / self.normal[2]
    }

    /// How far a point lies off the plane, on the side nearer to the viewer.
    pub fn above(&self, p: Point) -> f64 {
        (dot(self.normal, p) - self.offset) * self.normal[2].signum()
    }

    pub fn mean_depth(&self) -> f64 {
        self.corners.iter().map(|p| p[2]).sum::<f64>() / self.corners.len() as f64
    }

    /// The sides, seen so that the inside lies where `outside` is below 0.
    fn sides(&self) -> impl Iterator<Item = Side> + '_ {
        let n = self.corners.len();
        (0..n).map(move |i| Side { from: self.corners[i], to: self.corners[(i + 1) % n], way: self.way })
    }

    /// The corners of what the two cover together in the picture: x and y, and no depth.
    fn common(&self, other: &Piece) -> Vec<Point> {
        let mut left = self.corners.clone();
        for side in other.sides() {
            left = cut(&left, |p| -side.outside(p)).0;
            if left.len() < 3 {
                return vec![];
            }
        }
        left
    }

    /// Which of two pieces hides the other, where they cover the same place.
    pub fn compare(&self, other: &Piece) -> Cover {
        let common = self.common(other);
        if common.is_empty() || area(&common).abs() < SMALL {
            return Cover::Apart;
        }
        let gaps = common.iter().map(|p| self.depth(p[0], p[1]) - other.depth(p[0], p[1]));
        let (least, most) = gaps.fold((0.0, 0.0), |(a, b): (f64, f64), gap| (a.min(gap), b.max(gap)));
        match (least < -SAME, most > SAME) {
            (false, false) => Cover::Apart,
            (false, true) => Cover::Over,
            (true, false) => Cover::Under,
            (true, true) => Cover::Crossing,
        }
    }

    /// The parts on the viewer's side of a plane and beyond it.
    pub fn split(&self, plane: &Piece) -> (Option<Piece>, Option<Piece>) {
        let (near, far) = cut(&self.corners, |p| plane.above(p));
        (self.part(near), self.part(far))
    }

    /// What is left of it where another piece hides a part; None where that hides nothing of it.
    pub fn less(&self, over: &Piece) -> Option<Vec<Piece>> {
        if self.lo[0] >= over.hi[0] || over.lo[0] >= self.hi[0] || self.lo[1] >= over.hi[1] || over.lo[1] >= self.hi[1] {
            return None;
        }
        let mut left = vec![];
        let mut under = self.corners.clone();
        let nearer = |p: Point| over.depth(p[0], p[1]) - self.depth(p[0], p[1]) - SAME;
        let mut keep = |measure: &dyn Fn(Point) -> f64| {
            let (inside, outside) = cut(&under, measure);
            left.push(outside);
            under = inside;
            under.len() > 2 && area(&under).abs() > SMALL
        };
        let hides = over.sides().all(|side| keep(&|p| -side.outside(p))) && keep(&nearer);
        hides.then(|| left.into_iter().filter_map(|corners| self.part(corners)).collect())
    }

    /// The piece with other corners in its plane.
    fn part(&self, corners: Vec<Point>) -> Option<Piece> {
        if corners.len() < 3 {
            return None;
        }
        Piece::new(self.facet, self.colour, corners, self.normal)
    }

    /// From where to where, between 0 and 1, the piece hides the way from a to b.
    pub fn hides(&self, a: Point, b: Point, margin: f64) -> Option<(f64, f64)> {
        let (mut t0, mut t1) = (0.0, 1.0);
        for side in self.sides() {
            keep(&mut t0, &mut t1, -side.outside(a), -side.outside(b))?;
        }
        let over = |p: Point| self.depth(p[0], p[1]) - p[2] - margin;
        keep(&mut t0, &mut t1, over(a), over(b))?;
        Some((t0, t1))
    }

    pub fn hides_point(&self, p: Point, margin: f64) -> bool {
        self.sides().all(|side| side.outside(p) < 0.0) && self.depth(p[0], p[1]) > p[2] + margin
    }
}

pub enum Cover {
    Apart,
    Over,
    Under,
    Crossing,
}

struct Side {
    from: Point,
    to: Point,
    way: f64,
}

impl Side {
    fn outside(&self, p: Point) -> f64 {
        let (along, off) = (sub(self.to, self.from), sub(p, self.from));
        -self.way * (along[0] * off[1] - along[1] * off[0])
    }
}

/// The area in the picture; its sign tells which way round the corners run.
fn area(corners: &[Point]) -> f64 {
    let first = corners[0];
    let cross = |b: &Point, c: &Point| (b[0] - first[0]) * (c[1] - first[1]) - (b[1] - first[1]) * (c[0] - first[0]);
    0.5 * corners[1..].iter().zip(&corners[2..]).map(|(b, c)| cross(b, c)).sum::<f64>()
}

/// A polygon cut in two where a measure changes its sign: the part at and above zero, and that at and below.
fn cut(corners: &[Point], measure: impl Fn(Point) -> f64) -> (Vec<Point>, Vec<Point>) {
    let (mut above, mut below) = (Vec::with_capacity(corners.len() + 1), Vec::with_capacity(corners.len() + 1));
    let mut last = corners[corners.len() - 1];
    let mut before = measure(last);
    for &p in corners {
        let here = measure(p);
        if before * here < 0.0 {
            let middle = between(last, p, before / (before - here));
            above.push(middle);
            below.push(middle);
        }
        if here >= 0.0 {
            above.push(p);
        }
        if here <= 0.0 {
            below.push(p);
        }
        (last, before) = (p, here);
    }
    (above, below)
}

/// Narrows t0 to t1 to where a measure, from its value at 0 to that at 1, is above zero.
fn keep(t0: &mut f64, t1: &mut f64, at0: f64, at1: f64) -> Option<()> {
    match (at0 > 0.0, at1 > 0.0) {
        (true, true) => (),
        (false, false) => return None,
        (false, true) => *t0 = t0.max(at0 / (at0 - at1)),
        (true, false) => *t1 = t1.min(at0 / (at0 - at1)),
    }
    (*t0 < *t1).then_some(())
}

#[cfg(test)]
pub mod tests {
    use super::*;
    use crate::picture::vector::{normal, unit};

    pub fn piece(facet: usize, corners: &[Point]) -> Piece {
        Piece::new(facet, [0, 0, 0], corners.to_vec(), unit(normal(corners))).unwrap()
    }

    pub fn square(facet: usize, x: f64, y: f64, depth: f64) -> Piece {
        piece(facet, &[[x, y, depth], [x + 10.0, y, depth], [x + 10.0, y + 10.0, depth], [x, y + 10.0, depth]])
    }

    #[test]
    fn the_nearer_hides() {
        let far = square(0, 0.0, 0.0, 1.0);
        assert!(matches!(square(1, 5.0, 5.0, 2.0).compare(&far), Cover::Over));
        assert!(matches!(far.compare(&square(1, 5.0, 5.0, 2.0)), Cover::Under));
        assert!(matches!(square(1, 10.0, 0.0, 2.0).compare(&far), Cover::Apart));
        assert!(matches!(square(1, 5.0, 5.0, 1.0).compare(&far), Cover::Apart));
        let ramp = piece(1, &[[0.0, 0.0, 0.0], [0.0, 10.0, 0.0], [10.0, 10.0, 4.0], [10.0, 0.0, 4.0]]);
        assert!(matches!(ramp.compare(&far), Cover::Crossing));
        let (near, far) = ramp.split(&far);
        assert_eq!([near, far].map(|part| area(&part.unwrap().corners).abs()), [75.0, 25.0]);
    }

    #[test]
    fn what_is_hidden_is_cut_off() {
        let far = square(0, 0.0, 0.0, 1.0);
        let areas = |parts: Vec<Piece>| parts.iter().map(|p| area(&p.corners).abs()).sum::<f64>();
        assert_eq!(far.less(&square(1, 5.0, 5.0, 2.0)).map(areas), Some(75.0));
        assert_eq!(far.less(&square(1, -1.0, 0.0, 2.0)).map(areas), Some(10.0));
        assert_eq!(far.less(&square(1, 0.0, 0.0, 2.0)).map(areas), Some(0.0));
        assert_eq!(far.less(&square(1, 5.0, 5.0, 0.0)).map(areas), None);
        assert_eq!(far.less(&square(1, 10.0, 0.0, 2.0)).map(areas), None);
        let ramp = piece(1, &[[0.0, 0.0, 0.0], [0.0, 10.0, 0.0], [10.0, 10.0, 4.0], [10.0, 0.0, 4.0]]);
        assert_eq!(far.less(&ramp).map(|parts| areas(parts).round()), Some(25.0));
    }

    #[test]
    fn a_line_behind_is_hidden() {
        let front = square(0, 0.0, 0.0, 5.0);
        assert_eq!(front.hides([-10.0, 5.0, 0.0], [30.0, 5.0, 0.0], 0.01), Some((0.25, 0.5)));
        assert_eq!(front.hides([-10.0, 5.0, 6.0], [30.0, 5.0, 6.0], 0.01), None);
        assert_eq!(front.hides([0.0, 0.0, 5.0], [10.0, 0.0, 5.0], 0.01), None);
        assert_eq!(front.hides([-10.0, 11.0, 0.0], [30.0, 11.0, 0.0], 0.01), None);
        assert!(front.hides_point([5.0, 5.0, 4.0], 0.01) && !front.hides_point([5.0, 5.0, 5.0], 0.01));
    }
}
