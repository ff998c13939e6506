//! The way of the Rust's `sheet_metal`, step by step, to count what nearly happened at each.
use crate::wanted::Stock;
use against::counts::Counts;
use oracle::faults::DfmReport;
use oracle::math::Vec3;
use oracle::measures::{seg_distance, Measures, Round, Sample, Segments};
use oracle::solid::{FaceId, Polygon, SurfaceKind};
use std::collections::HashSet;

#[derive(Clone, Copy)]
struct Bend {
    inside: usize,
    outside: usize,
}

pub struct Steps<'a> {
    pub measures: Measures<'a>,
    pub stock: Stock,
    pub counts: &'a mut Counts,
}

impl Steps<'_> {
    fn add(&mut self, what: &str, is: bool) {
        self.counts.add(what, u64::from(is));
    }

    pub fn all(mut self, report: &DfmReport) {
        let kept = self.kept();
        if kept.is_empty() {
            return;
        }
        let (t, exactly) = median(&kept);
        self.add("half of the weight is met exactly", exactly);
        self.off(&kept, t, report);
        if report.thickness.is_none() {
            return;
        }
        let rounds = self.measures.rounds();
        let bends = self.bends(&rounds, t);
        assert_eq!((report.thickness, report.bends), (Some(t), bends.len()), "the steps are not those of the Rust");
        self.flanges(&rounds, &bends, t);
        self.holes(&rounds, &bends, t);
    }

    fn kept(&mut self) -> Vec<Sample> {
        let all = self.measures.readings();
        let (n, rough) = (all.len(), self.measures.rough());
        let mut kept = Vec::new();
        for s in all {
            let neighbours = self.measures.neighbours(s.face);
            let distances = neighbours.iter().flat_map(|(_, segments)| segments.iter()).map(|x| seg_distance(s.point, *x));
            let edge = distances.fold(f64::INFINITY, f64::min);
            self.counts.limit("reading from an edge", edge, 0.6 * rough);
            self.add("a reading of a face that no other is next to", edge == f64::INFINITY);
            if edge > 0.6 * rough {
                kept.push(s);
            }
        }
        self.add("no reading", n == 0);
        self.add("every reading dropped", n > 0 && kept.is_empty());
        self.add("some readings dropped", kept.len() < n && !kept.is_empty());
        self.add("the median of the kept ones is another", !kept.is_empty() && median(&kept).0 != rough);
        kept
    }

    fn off(&mut self, kept: &[Sample], t: f64, report: &DfmReport) {
        let is_off = |thickness: f64| (thickness - t).abs() > 0.03 * t;
        let (mut area, mut total) = (0.0, 0.0);
        let mut sorted: Vec<&Sample> = kept.iter().collect();
        sorted.sort_by(|a, b| a.thickness.total_cmp(&b.thickness));
        sorted.iter().for_each(|s| total += s.area);
        for s in kept {
            let (out, x) = (is_off(s.thickness), s.thickness);
            let [nearer, further] = if x > t { [x.next_down(), x.next_up()] } else { [x.next_up(), x.next_down()] };
            self.add("reading just off", out && !is_off(nearer));
            self.add("reading just not off", !out && is_off(further));
            self.add("reading at the limit of what is off", (x - t).abs() == 0.03 * t);
            if out {
                area += s.area;
            }
        }
        self.counts.limit("area that is off", area, 0.15 * total);
        self.add("off, but not enough of it", area > 0.0 && report.thickness.is_some());
        let fault = report.findings.iter().find(|f| f.rule == "Not one thickness");
        let unkept = |id: &FaceId| kept.iter().all(|s| s.face != *id);
        self.add("faces that are not one thickness, of which one has no kept reading", fault.is_some_and(|f| f.faces.iter().any(unkept)));
    }

    fn bends(&mut self, rounds: &[Round], t: f64) -> Vec<Bend> {
        let mut bends: Vec<Bend> = Vec::new();
        for (inside, i) in rounds.iter().enumerate().filter(|(_, r)| r.concave && !r.hole) {
            let fitting: Vec<usize> = (0..rounds.len()).filter(|o| self.fits(i, &rounds[*o], t)).collect();
            self.add("two outsides fit", fitting.len() > 1);
            self.add("an inside without an outside", fitting.is_empty());
            if let Some(&outside) = fitting.first() {
                self.add("axes of a bend that point against each other", i.axis.dot(rounds[outside].axis) < 0.0);
                self.add("an outside of two bends", bends.iter().any(|b| b.outside == outside));
                bends.push(Bend { inside, outside });
                self.counts.limit("inside radius", i.radius + 1e-9, self.stock.ratio() * t);
            }
        }
        bends
    }

    fn fits(&mut self, i: &Round, o: &Round, t: f64) -> bool {
        let close = |outside: f64| (outside - i.radius - t).abs() <= 0.05 * t.max(1e-9);
        let (lean, off) = (o.axis.cross(i.axis).length(), (o.origin - i.origin).cross(i.axis).length());
        let (is_close, is_upright, is_on) = (close(o.radius), lean < 1e-3, off < 0.05 * t);
        if o.concave {
            return false;
        }
        if is_close && is_on {
            self.counts.limit("axes that lean", lean, 1e-3);
        }
        if is_close && is_upright {
            self.counts.limit("axes that are off", off, 0.05 * t);
            let by_outside = (o.origin - i.origin).cross(o.axis).length();
            self.add("the outside's axis would decide otherwise", is_on != (by_outside < 0.05 * t));
        }
        if is_on && is_upright {
            let beside = [o.radius.next_down(), o.radius.next_up()].map(close);
            self.add("outside radius just close", is_close && beside.contains(&false));
            self.add("outside radius just not close", !is_close && beside.contains(&true));
            self.add("outside radius at the limit of what is close", (o.radius - i.radius - t).abs() == 0.05 * t);
        }
        is_close && is_upright && is_on
    }

    fn flanges(&mut self, rounds: &[Round], bends: &[Bend], t: f64) {
        for b in bends {
            let mut seen = Vec::new();
            for bend in [b.inside, b.outside].map(|k| &rounds[k]) {
                for (other, segments) in self.measures.neighbours(bend.id) {
                    let polygons = self.measures.polygons(other);
                    if polygons[0].tag.surface == SurfaceKind::Plane {
                        let axes = [bend.axis, rounds[b.inside].axis];
                        Flange { polygons, segments, axes, least: 4.0 * t }.note(self.counts, &mut seen);
                    }
                }
            }
        }
    }

    fn holes(&mut self, rounds: &[Round], bends: &[Bend], t: f64) {
        let with_word = self.stock.has_a_word();
        let least = if with_word { 1.2 * t } else { t };
        for h in rounds.iter().filter(|r| r.hole) {
            let d = 2.0 * h.radius;
            self.counts.limit(if with_word { "hole of 1.2 t" } else { "hole of t" }, d + 1e-9, least);
            let decides = with_word && d + 1e-9 >= t && d + 1e-9 < 1.2 * t;
            self.add("a name decides about a hole", decides);
            self.add("a word at the end of 40 bytes decides about a hole", decides && self.stock.ends_in_a_word());
            let is_plane = |id: FaceId| self.measures.polygons(id)[0].tag.surface == SurfaceKind::Plane;
            let plates: Vec<FaceId> = self.measures.neighbours(h.id).iter().map(|n| n.0).filter(|id| is_plane(*id)).collect();
            self.add("a hole without plates", plates.is_empty());
            self.add("a hole next to one plate", plates.len() == 1);
            let gaps = self.gaps(h, &plates);
            let Some(&(gap, other)) = first_least(gaps.iter()) else { continue };
            let faces: HashSet<FaceId> = gaps.iter().filter(|g| g.0 == gap).map(|g| g.1).collect();
            self.add("several faces at the nearest gap", faces.len() > 1);
            self.add("the last of equal gaps is another face", gaps.iter().rfind(|g| g.0 == gap).is_some_and(|g| g.1 != other));
            let is_bend = |id: &FaceId| bends.iter().any(|b| [b.inside, b.outside].iter().any(|k| rounds[*k].id == *id));
            self.add("a bend and an edge at the nearest gap", faces.iter().any(is_bend) && !faces.iter().all(is_bend));
            let turned: Vec<FaceId> = plates.iter().rev().copied().collect();
            let named = first_least(self.gaps(h, &turned).iter()).map(|g| g.1);
            self.add("another first plate would name another face", named != Some(other));
            self.add("the nearest gap is below 0", gap < 0.0);
            self.add("the nearest gap is 0", gap == 0.0);
            self.add("the nearest is a hole", rounds.iter().any(|r| r.hole && r.id == other));
            self.add("a diameter whose text is rounded from a half", (200.0 * d).fract() == 0.0 && (100.0 * d).fract() == 0.5 && d + 1e-9 < least);
            let both: HashSet<FaceId> = gaps.iter().map(|g| g.1).collect();
            self.add("a face next to both plates", both.len() < gaps.len());
            self.nearest(rounds, bends, t, gap, other);
        }
    }

    fn nearest(&mut self, rounds: &[Round], bends: &[Bend], t: f64, gap: f64, other: FaceId) {
        let radius = |b: &Bend| rounds[b.inside].radius;
        let Some(bend) = bends.iter().find(|b| [b.inside, b.outside].iter().any(|k| rounds[*k].id == other)) else {
            return self.counts.limit("hole from an edge", gap + 1e-9, 2.0 * t);
        };
        let largest = bends.iter().map(radius).fold(0.0, f64::max);
        self.counts.limit("hole from a bend", gap + 1e-9, 2.5 * t + largest);
        let own = radius(bend);
        self.add("the nearest is the inside of a bend", rounds[bend.inside].id == other);
        self.add("the nearest is the outside of a bend", rounds[bend.outside].id == other);
        self.add("the largest bend radius is not the nearest bend's", own < largest);
        self.add("between bends only the largest radius makes it too close", gap + 1e-9 >= 2.5 * t + own && gap + 1e-9 < 2.5 * t + largest);
    }

    /// Of each plate in turn the faces next to it, and how far each is from the hole.
    fn gaps(&self, h: &Round, plates: &[FaceId]) -> Vec<(f64, FaceId)> {
        let mut gaps = Vec::new();
        for plate in plates {
            for (other, segments) in self.measures.neighbours(*plate) {
                if other != h.id && !plates.contains(&other) {
                    let distances = segments.iter().map(|s| seg_distance(h.centre, *s));
                    gaps.push((distances.fold(f64::INFINITY, f64::min) - h.radius, other));
                }
            }
        }
        gaps
    }
}

/// A flat face next to a bend.
struct Flange<'a> {
    polygons: Vec<&'a Polygon>,
    segments: &'a Segments,
    /// Of the bend's side that it is next to, and of its inside.
    axes: [Vec3; 2],
    least: f64,
}

impl Flange<'_> {
    /// Beside the normals of the bend's flanges that were seen before it, to which its own is added where it is one.
    fn note(&self, counts: &mut Counts, seen: &mut Vec<Vec3>) {
        let lean = |n: Vec3| n.dot(self.axes[0]).abs();
        let parallel = |n: Vec3| seen.iter().map(|m| m.dot(n).abs()).fold(0.0, f64::max);
        let counts_for = |n: Vec3| lean(n) <= 0.1 && parallel(n) <= 0.99;
        let n = self.polygons[0].normal;
        let is_flange = counts_for(n);
        if parallel(n) <= 0.99 {
            counts.limit("flange that leans", lean(n), 0.1);
        }
        if lean(n) <= 0.1 {
            counts.limit("parallel flanges", parallel(n), 0.99);
            counts.add("a flange seen already", u64::from(parallel(n) > 0.99));
        }
        let otherwise = self.polygons.iter().any(|p| counts_for(p.normal) != is_flange);
        counts.add("another polygon's normal would decide otherwise", u64::from(otherwise));
        if is_flange {
            seen.push(n);
            let (first, reach) = (self.segments[0][0], |from: Vec3| self.reach(from, self.axes[0]));
            let short = |from: Vec3| reach(from) + 1e-9 < self.least;
            counts.limit("flange", reach(first) + 1e-9, self.least);
            let texts = self.axes.map(|axis| format!("{:.2}", self.reach(first, axis)));
            counts.add("the inside's axis would say another length of a flange", u64::from(short(first) && texts[0] != texts[1]));
            counts.add("another segment would decide otherwise", u64::from(self.segments.iter().any(|s| short(s[0]) != short(first))));
        }
    }

    fn reach(&self, from: Vec3, axis: Vec3) -> f64 {
        let across = |v: &Vec3| {
            let d = *v - from;
            (d - axis * d.dot(axis)).length()
        };
        self.polygons.iter().flat_map(|p| p.verts.iter()).map(across).fold(0.0, f64::max)
    }
}

fn first_least<'a>(gaps: impl Iterator<Item = &'a (f64, FaceId)>) -> Option<&'a (f64, FaceId)> {
    gaps.fold(None, |least: Option<&(f64, FaceId)>, g| if least.is_none_or(|l| g.0 < l.0) { Some(g) } else { least })
}

/// dfm.rs `weighted_median`, and whether the sum is there just half of all.
fn median(readings: &[Sample]) -> (f64, bool) {
    let mut sorted: Vec<(f64, f64)> = readings.iter().map(|s| (s.thickness, s.area)).collect();
    sorted.sort_by(|a, b| a.0.total_cmp(&b.0));
    let total: f64 = sorted.iter().map(|s| s.1).sum();
    let mut sum = 0.0;
    for (x, w) in &sorted {
        sum += w;
        if sum >= 0.5 * total {
            return (*x, sum == 0.5 * total);
        }
    }
    (sorted.last().map_or(0.0, |s| s.0), false)
}
