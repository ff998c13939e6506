//! Closed outlines in a plane (a bore, a pocket, a boss) and the polygons round them.
use crate::generate::draw::Draw;
use crate::generate::part::{Face, Kind, Part};
use crate::generate::space::{turn, Frame, P};

/// The side from a point of the outline to the next: which face, and of which circle if of one.
#[derive(Clone, Copy)]
pub struct Side {
    pub index: u32,
    pub circle: Option<(P, f64)>,
}

/// Convex, counter-clockwise seen from +z.
#[derive(Clone)]
pub struct Ring {
    pub centre: P,
    pub points: Vec<P>,
    pub sides: Vec<Side>,
    /// Where the cylinders' axis origin lies, and the length and sense of its direction.
    pub axis: (f64, f64),
}

/// x0, y0, x1, y1.
pub type Rect = [f64; 4];

impl Ring {
    pub fn circle(centre: P, radius: f64, facets: usize) -> Ring {
        let side = Side { index: 0, circle: Some((centre, radius)) };
        let points = (0..facets).map(|i| on_circle(centre, radius, (i as f64 + 0.5) / facets as f64)).collect();
        Ring { centre, points, sides: vec![side; facets], axis: (0.0, 1.0) }
    }

    pub fn rectangle(r: Rect) -> Ring {
        let points = vec![(r[2], r[3]), (r[0], r[3]), (r[0], r[1]), (r[2], r[1])];
        let sides = (0..4).map(|index| Side { index, circle: None }).collect();
        Ring { centre: middle(r), points, sides, axis: (0.0, 1.0) }
    }

    /// A rectangle with rounded corners of so many facets each.
    pub fn rounded(r: Rect, radius: f64, facets: usize) -> Ring {
        let mut ring = Ring { centre: middle(r), points: vec![], sides: vec![], axis: (0.0, 1.0) };
        let (x, y) = ([r[2] - radius, r[0] + radius], [r[3] - radius, r[1] + radius]);
        let centres = [(x[0], y[0]), (x[1], y[0]), (x[1], y[1]), (x[0], y[1])];
        for (corner, centre) in centres.into_iter().enumerate() {
            for k in 0..=facets {
                let share = 0.25 * (corner as f64 + k as f64 / facets as f64);
                ring.points.push(on_circle(centre, radius, share));
                let (index, circle) = if k < facets { (corner, Some((centre, radius))) } else { (4 + corner, None) };
                ring.sides.push(Side { index: index as u32, circle });
            }
        }
        ring
    }

    pub fn with_axis(mut self, d: &mut Draw) -> Ring {
        if d.one_in(2) {
            self.axis = (d.between(-20.0, 20.0), d.pick(&[-1.0, 0.5, 2.0, -0.75, 1.5]));
        }
        self
    }

    /// The wall of the outline from height za up to zb; inward: seen from the ring's middle.
    pub fn wall(&self, part: &mut Part, frame: &Frame, za: f64, zb: f64, feature: u32, inward: bool) {
        let n = self.points.len();
        for i in 0..n {
            let (mut a, mut b) = (self.points[i], self.points[(i + 1) % n]);
            if inward {
                std::mem::swap(&mut a, &mut b);
            }
            let quad = [[a.0, a.1, za], [b.0, b.1, za], [b.0, b.1, zb], [a.0, a.1, zb]];
            part.put(frame, (feature, self.sides[i].index), self.kind(frame, i), &quad);
        }
    }

    fn kind(&self, frame: &Frame, side: usize) -> Kind {
        let Some(((x, y), radius)) = self.sides[side].circle else { return Kind::Plane };
        let (shift, length) = self.axis;
        Kind::Cylinder(frame.point([x, y, shift]), frame.direction([0.0, 0.0, length]), radius)
    }

    /// The flat within the outline.
    pub fn disc(&self, part: &mut Part, frame: &Frame, z: f64, face: Face, up: bool) {
        flat(part, frame, self.points.clone(), z, face, up);
    }

    /// The flat between a rectangle and the outline: one convex polygon a side, or, with fewer
    /// pieces than sides, coarser ones that are not convex (32 sides need much of the 16,384
    /// bytes that the program takes).
    pub fn round_about(&self, part: &mut Part, frame: &Frame, rect: Rect, z: f64, face: Face, up: bool, pieces: usize) {
        let n = self.points.len();
        let pieces = pieces.min(n);
        for k in 0..pieces {
            let (from, to) = (k * n / pieces, (k + 1) * n / pieces);
            flat(part, frame, self.sector(rect, from, to), z, face, up);
        }
    }

    /// From one point of the outline out to the rectangle, along it, and back in to the other.
    fn sector(&self, rect: Rect, from: usize, to: usize) -> Vec<P> {
        let corners = [(rect[2], rect[3]), (rect[0], rect[3]), (rect[0], rect[1]), (rect[2], rect[1])];
        let n = self.points.len();
        let (a, b) = (self.quadrant(from), self.quadrant(to % n));
        let steps = (b + 4 - a) % 4;
        let mut out = vec![self.points[from]];
        out.extend((0..=steps).map(|s| corners[(a + s) % 4]));
        out.extend((from + 1..=to).rev().map(|i| self.points[i % n]));
        out
    }

    /// The rectangle's corner that a point of the outline is tied to.
    fn quadrant(&self, i: usize) -> usize {
        let (p, c) = (self.points[i], self.centre);
        match (p.0 >= c.0, p.1 >= c.1) {
            (true, true) => 0,
            (false, true) => 1,
            (false, false) => 2,
            (true, false) => 3,
        }
    }
}

fn middle(r: Rect) -> P {
    (0.5 * (r[0] + r[2]), 0.5 * (r[1] + r[3]))
}

pub fn on_circle(centre: P, radius: f64, share: f64) -> P {
    let (c, s) = turn(share);
    (centre.0 + radius * c, centre.1 + radius * s)
}

/// A polygon at height z, given counter-clockwise seen from +z.
pub fn flat(part: &mut Part, frame: &Frame, mut points: Vec<P>, z: f64, face: Face, up: bool) {
    if !up {
        points.reverse();
    }
    let vertices: Vec<_> = points.iter().map(|p| [p.0, p.1, z]).collect();
    part.put(frame, face, Kind::Plane, &vertices);
}
