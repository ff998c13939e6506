//! A part as a list of polygons, and what is done to a whole part.
use crate::generate::draw::Draw;
use crate::generate::space::{allowed_direction, Frame, V};
use crate::vector::{cross, dot};
use std::collections::HashMap;

/// Feature and index.
pub type Face = (u32, u32);

#[derive(Clone, Copy, PartialEq)]
pub enum Kind {
    Plane,
    /// Origin, direction, radius.
    Cylinder(V, V, f64),
    Revolved(V, V),
    Other,
}

#[derive(Clone)]
pub struct Polygon {
    pub face: Face,
    pub kind: Kind,
    pub vertices: Vec<V>,
}

#[derive(Clone, Default)]
pub struct Part {
    pub polygons: Vec<Polygon>,
}

impl Part {
    pub fn push(&mut self, face: Face, kind: Kind, vertices: Vec<V>) {
        self.polygons.push(Polygon { face, kind, vertices });
    }

    /// A polygon given in a frame; counter-clockwise seen from outside.
    pub fn put(&mut self, frame: &Frame, face: Face, kind: Kind, vertices: &[V]) {
        self.push(face, kind, vertices.iter().map(|v| frame.point(*v)).collect());
    }

    /// A box of six planes, numbered as in document 01: bottom, top, four sides.
    pub fn block(&mut self, feature: u32, lo: V, hi: V) {
        let corner = |i: usize| {
            let choose = |axis: usize, bit: usize| if i & bit == 0 { lo[axis] } else { hi[axis] };
            [choose(0, 1), choose(1, 2), choose(2, 4)]
        };
        let sides = [[0, 2, 3, 1], [4, 5, 7, 6], [0, 1, 5, 4], [1, 3, 7, 5], [3, 2, 6, 7], [2, 0, 4, 6]];
        for (index, side) in sides.iter().enumerate() {
            self.push((feature, index as u32), Kind::Plane, side.iter().map(|i| corner(*i)).collect());
        }
    }

    /// A hollow: the same box wound inward.
    pub fn hollow(&mut self, feature: u32, lo: V, hi: V) {
        let start = self.polygons.len();
        self.block(feature, lo, hi);
        for polygon in &mut self.polygons[start..] {
            polygon.vertices.reverse();
        }
    }

    pub fn vertex_count(&self) -> usize {
        self.polygons.iter().map(|p| p.vertices.len()).sum()
    }

    pub fn move_to(&mut self, frame: &Frame) {
        for polygon in &mut self.polygons {
            for v in &mut polygon.vertices {
                *v = frame.point(*v);
            }
            polygon.kind = match polygon.kind {
                Kind::Cylinder(o, a, r) => {
                    Kind::Cylinder(frame.point(o), allowed_direction(frame.direction(a)), r)
                }
                Kind::Revolved(o, a) => Kind::Revolved(frame.point(o), allowed_direction(frame.direction(a))),
                other => other,
            };
        }
    }

    /// What must not matter to the part, but does to the order of things: the order of polygons,
    /// each polygon's first vertex, the numbers of the features.
    pub fn shuffle(&mut self, d: &mut Draw) {
        if d.one_in(3) {
            let order = d.order(self.polygons.len());
            self.polygons = order.iter().map(|i| self.polygons[*i].clone()).collect();
        }
        if d.one_in(4) {
            for polygon in &mut self.polygons {
                let by = d.below(polygon.vertices.len());
                polygon.vertices.rotate_left(by);
            }
        }
        if d.one_in(4) {
            self.renumber(d);
        }
    }

    /// Other face numbers, one for one.
    fn renumber(&mut self, d: &mut Draw) {
        let mut given: HashMap<Face, Face> = HashMap::new();
        let mask = d.pick(&[3, 0xff, 0xffff_ffff]);
        for polygon in &mut self.polygons {
            let next = given.len() as u32;
            let feature = d.bits() as u32 & mask;
            polygon.face = *given.entry(polygon.face).or_insert((feature, next));
        }
    }

    /// Faces or surfaces that do not fit their polygon: a face's first polygon decides its surface.
    pub fn mix_up(&mut self, d: &mut Draw) {
        for _ in 0..d.from(1, 3) {
            let (i, j) = (d.below(self.polygons.len()), d.below(self.polygons.len()));
            match d.below(4) {
                0 => self.polygons[i].face = self.polygons[j].face,
                1 => self.polygons[i].kind = self.polygons[j].kind,
                2 => self.polygons[i].vertices.reverse(),
                _ => {
                    let copy = self.polygons[j].clone();
                    self.polygons.push(copy);
                }
            }
        }
    }

    /// Every side, by keys of 1e4 as in `shared_segments`, is used exactly twice.
    pub fn is_closed(&self) -> bool {
        let key = |v: V| v.map(|c| (c * 1e4).round() as i64);
        let mut uses: HashMap<([i64; 3], [i64; 3]), u32> = HashMap::new();
        for p in &self.polygons {
            for (i, v) in p.vertices.iter().enumerate() {
                let (a, b) = (key(*v), key(p.vertices[(i + 1) % p.vertices.len()]));
                *uses.entry((a.min(b), a.max(b))).or_default() += u32::from(a != b);
            }
        }
        uses.values().all(|n| *n == 2 || *n == 0)
    }

    /// The volume within, negative where the winding is inward.
    pub fn volume(&self) -> f64 {
        let fan = |p: &Polygon| -> f64 {
            let v = &p.vertices;
            (1..v.len() - 1).map(|k| dot(v[0], cross(v[k], v[k + 1])) / 6.0).sum()
        };
        self.polygons.iter().map(fan).sum()
    }
}
