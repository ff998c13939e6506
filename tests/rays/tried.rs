//! Hits and readings by the words of document 01, with the rule of own boxes of document 02's item 7: each polygon is tried alone. Readings are for small
//! bodies.
use crate::found::{Found, Hit, Sample};
use common::polygon::{area, centroid, own_box, plane};
use against::counts::Counts;
use common::ids;
use common::mesh::{Mesh, Point};
use common::vector::{cross, dot, minus, plus, times};

const RAYS: f64 = 600.0;

pub struct Tried<'a> {
    mesh: &'a Mesh,
    planes: Vec<(Point, f64)>,
    boxes: Vec<[Point; 2]>,
    areas: Vec<f64>,
    /// Of each face its polygons, by rising number.
    faces: Vec<Vec<usize>>,
    /// What occurs on the way.
    counts: &'a mut Counts,
}

/// What is left of a ray inside a polygon's own box: where it enters and leaves, and whether an axis was passed for a NaN.
struct Span {
    t0: f64,
    t1: f64,
    met_nan: bool,
}

impl Span {
    fn reaches(&self, t: f64) -> bool {
        self.t0 <= self.t1 && self.t0 <= t
    }
}

/// The smallest t, then the lowest number; and how many are struck at this t.
fn nearest(struck: &[(usize, f64)]) -> (Hit, usize) {
    let nearest: Vec<_> = struck.iter().filter(|(_, t)| !struck.iter().any(|(_, s)| s < t)).collect();
    let lowest = nearest.iter().min_by_key(|(p, _)| *p);
    (lowest.map(|(p, t)| (*p as u32, t.to_bits())), nearest.len())
}

impl Tried<'_> {
    /// With readings or without.
    pub fn found(mesh: &Mesh, rays: &[f64], readings: bool, counts: &mut Counts) -> Found {
        let polygons = |id: &ids::Id| (0..mesh.polygons.len()).filter(|p| mesh.polygons[*p].face() == *id).collect();
        let faces = if readings { ids::of_faces(mesh).iter().map(polygons).collect() } else { Vec::new() };
        let planes = mesh.polygons.iter().map(plane).collect();
        let boxes = mesh.polygons.iter().map(|p| own_box(&p.points)).collect();
        let areas = mesh.polygons.iter().map(|p| area(&p.points)).collect();
        let mut tried = Tried { mesh, planes, boxes, areas, faces, counts };
        let samples = if readings { tried.readings() } else { Vec::new() };
        let rays: Vec<[Point; 2]> = rays.chunks(6).map(|r| [[r[0], r[1], r[2]], [r[3], r[4], r[5]]]).collect();
        let hits = rays.iter().map(|[origin, dir]| tried.hit_of_ray(*origin, *dir)).collect();
        Found { samples, hits, open: rays.iter().map(|[p, dir]| tried.is_open(*p, *dir)).collect() }
    }

    /// The slab formula over the own box of polygon p, with no hit yet; an axis that meets a NaN moves neither end.
    fn span(&self, origin: Point, dir: Point, p: usize) -> Span {
        let [low, high] = self.boxes[p];
        let mut span = Span { t0: 0.0, t1: f64::INFINITY, met_nan: false };
        for k in 0..3 {
            let inverse = 1.0 / dir[k];
            let ends = [low, high].map(|bound| (bound[k] - origin[k]) * inverse);
            if ends.iter().any(|t| t.is_nan()) {
                span.met_nan = true;
                continue;
            }
            span.t0 = span.t0.max(ends[0].min(ends[1]));
            span.t1 = span.t1.min(ends[0].max(ends[1]));
        }
        span
    }

    /// t, where the ray strikes polygon p: by `raycast`'s test, and through its own box.
    fn strikes(&self, origin: Point, dir: Point, p: usize) -> Option<f64> {
        self.crosses(origin, dir, p).filter(|t| self.span(origin, dir, p).reaches(*t))
    }

    /// t, where the ray meets polygon p by `raycast`'s own test.
    fn crosses(&self, origin: Point, dir: Point, p: usize) -> Option<f64> {
        let (normal, w) = self.planes[p];
        let denom = dot(normal, dir);
        let t = (w - dot(normal, origin)) / denom;
        if denom.abs() < 1e-12 || t < 0.0 {
            return None;
        }
        let q = plus(origin, times(dir, t));
        let v = &self.mesh.polygons[p].points;
        let is_within = |k: usize| dot(cross(minus(v[(k + 1) % v.len()], v[k]), minus(q, v[k])), normal) >= -1e-9;
        // every side, so that stopping early is no part of it
        let within = (0..v.len()).filter(|k| is_within(*k)).count();
        (within == v.len()).then_some(t)
    }

    /// All that the ray strikes: polygon and t.
    fn struck(&self, origin: Point, dir: Point) -> Vec<(usize, f64)> {
        (0..self.planes.len()).filter_map(|p| Some((p, self.strikes(origin, dir, p)?))).collect()
    }

    fn hit(&self, origin: Point, dir: Point) -> Hit {
        nearest(&self.struck(origin, dir)).0
    }

    fn hit_of_ray(&mut self, origin: Point, dir: Point) -> Hit {
        let crossed: Vec<(usize, f64)> = (0..self.planes.len()).filter_map(|p| Some((p, self.crosses(origin, dir, p)?))).collect();
        let spans: Vec<Span> = crossed.iter().map(|(p, _)| self.span(origin, dir, *p)).collect();
        let reached = |(k, (_, t)): (usize, &(usize, f64))| spans[k].reaches(*t).then_some(crossed[k]);
        let struck: Vec<(usize, f64)> = crossed.iter().enumerate().filter_map(reached).collect();
        let (hit, at_this_t) = nearest(&struck);
        let of_hit = hit.map(|(p, t)| (self.boxes[p as usize], self.span(origin, dir, p as usize), f64::from_bits(t)));
        let mut add = |what: &str, is: bool| self.counts.add(what, u64::from(is));
        add("several polygons at the smallest t", at_this_t > 1);
        add("several polygons at t of zero", at_this_t > 1 && hit.is_some_and(|(_, t)| f64::from_bits(t) == 0.0));
        add("several polygons at the smallest t, over 16 in all", at_this_t > 1 && self.planes.len() > 16);
        add("own boxes change the hit", hit != nearest(&crossed).0);
        let of_some = |is: &dyn Fn(&Span, f64) -> bool| spans.iter().zip(&crossed).any(|(span, (_, t))| is(span, *t));
        add("met beside its box", of_some(&|span, _| span.t0 > span.t1));
        add("met before its box is entered", of_some(&|span, t| span.t0 <= span.t1 && t < span.t0));
        add("met where its box is entered", of_some(&|span, t| span.t0 <= span.t1 && t == span.t0));
        add("met past its box", of_some(&|span, t| span.t0 <= span.t1 && t > span.t1));
        let Some(([low, high], span, t)) = of_hit else { return hit };
        add("a hit with a NaN axis", span.met_nan);
        add("a hit past its box", t > span.t1);
        add("a hit in a flat box", (0..3).any(|k| high[k] - low[k] < 2.1e-6));
        add("a hit with a zero in the direction", dir.contains(&0.0));
        hit
    }

    /// Whether nothing is struck from 1e-4 along the line on.
    fn is_open(&self, p: Point, dir: Point) -> bool {
        self.struck(plus(p, times(dir, 1e-4)), dir).is_empty()
    }

    fn face_area(&self, f: usize) -> f64 {
        self.faces[f].iter().fold(0.0, |sum, p| sum + self.areas[*p])
    }

    fn readings(&mut self) -> Vec<Sample> {
        let total = (0..self.faces.len()).fold(0.0, |sum, f| sum + self.face_area(f));
        if total <= 0.0 {
            self.counts.add("no area", u64::from(!self.faces.is_empty()));
            return Vec::new();
        }
        let mut list = Vec::new();
        for f in 0..self.faces.len() {
            let order = self.by_falling_area(&self.faces[f]);
            let wanted = ((self.face_area(f) / total * RAYS).ceil() as usize).max(1);
            let step = (order.len() / wanted).max(1);
            let starts = (0..wanted).map(|i| i * step).take_while(|at| *at < order.len());
            starts.for_each(|at| list.extend(self.reading(f, order[at])));
            self.counts.add("a face with polygons passed over", u64::from(step > 1));
            self.counts.add("a face of equal areas", u64::from(order.windows(2).any(|p| self.areas[p[0]] == self.areas[p[1]])));
        }
        list
    }

    /// At each place the polygon that so many come before: those of more area, and of the same area those of lower number.
    fn by_falling_area(&self, polygons: &[usize]) -> Vec<usize> {
        let comes = |a: usize, b: usize| self.areas[a] > self.areas[b] || (self.areas[a] == self.areas[b] && a < b);
        let place = |p: usize| polygons.iter().filter(|q| comes(**q, p)).count();
        let mut order = vec![usize::MAX; polygons.len()];
        polygons.iter().for_each(|p| order[place(*p)] = *p);
        order
    }

    /// From polygon p of face f.
    fn reading(&mut self, f: usize, p: usize) -> Option<Sample> {
        let (normal, _) = self.planes[p];
        let inward = times(normal, -1.0);
        let point = centroid(&self.mesh.polygons[p].points);
        let Some((hit, t)) = self.hit(plus(point, times(inward, 1e-6)), inward) else {
            self.counts.add("a reading's ray that hits nothing", 1);
            return None;
        };
        let hit = hit as usize;
        if dot(self.planes[hit].0, normal) >= -0.5 {
            self.counts.add("a reading's ray that hits what does not face back", 1);
            return None;
        }
        let other = self.faces.iter().position(|polygons| polygons.contains(&hit))?;
        Some(Sample {
            faces: [f, other],
            thickness: (f64::from_bits(t) + 1e-6).to_bits(),
            area: self.areas[p].to_bits(),
            point: point.map(f64::to_bits),
            normal: normal.map(f64::to_bits),
        })
    }
}
