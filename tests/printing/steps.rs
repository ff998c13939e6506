//! The way of the Rust's `printing`, step by step, to count what nearly happened at each: walls and holes here, undersides and hollows beside.
use crate::{shells, undersides};
use against::counts::Counts;
use against::printing::fit::SLACK;
use against::printing::jobs::Print;
use against::printing::ups;
use oracle::faults::{DfmReport, Part};
use oracle::math::Vec3;
use oracle::measures::Measures;
use oracle::solid::{FaceId, Solid};
use std::collections::BTreeMap;

pub struct Steps<'a> {
    pub body: &'a Solid,
    pub measures: Measures<'a>,
    pub print: Print,
    /// As long as 1.
    pub up: Vec3,
    pub counts: &'a mut Counts,
}

const OTHERWISE: &str = "the slack taken from the limit of a wall would decide otherwise";

/// Of two faces: the thickness of each reading, and whether it goes through layers.
type Readings = Vec<(f64, bool)>;

impl<'a> Steps<'a> {
    pub fn new(part: &'a Part, print: Print, counts: &'a mut Counts) -> Steps<'a> {
        let up = ups::vector(print.up).normalized();
        Steps { body: part.body(), measures: Measures::of(part.body()), print, up, counts }
    }

    pub fn add(&mut self, what: &str, is: bool) {
        self.counts.add(what, u64::from(is));
    }

    pub fn all(mut self, report: &DfmReport) {
        let of = |rules: &[&str]| report.findings.iter().filter(|f| rules.contains(&f.rule)).count();
        let walls = self.walls();
        let floors = of(&["Thinner than a layer", "Few layers", "Thinner than the nozzle", "Thin wall"]);
        assert_eq!(walls, floors, "the steps are not those of the Rust");
        self.holes();
        let over = undersides::of(&mut self);
        let said = report.findings.iter().find(|f| f.rule == "Overhang").map_or(0, |f| f.count);
        assert_eq!(over, said, "the steps are not those of the Rust");
        shells::of(&mut self, of(&["Enclosed hollow"]) > 0);
        self.heights(report);
    }

    /// How many there are that are too thin.
    fn walls(&mut self) -> usize {
        let mut walls: BTreeMap<[FaceId; 2], Readings> = BTreeMap::new();
        for s in self.measures.readings() {
            let cosine = s.normal.dot(self.up).abs();
            self.counts.limit("floor that leans", cosine, 0.99);
            let key = [s.face.min(s.hit), s.face.max(s.hit)];
            walls.entry(key).or_default().push((s.thickness, cosine > 0.99));
        }
        walls.into_values().filter(|readings| self.wall(readings)).count()
    }

    fn wall(&mut self, readings: &Readings) -> bool {
        let &(t, stacked) = readings.iter().fold(&(f64::INFINITY, readings[0].1), |least, s| if s.0 < least.0 { s } else { least });
        self.add("a floor to some readings, a side to others", readings.iter().any(|s| s.1 != stacked));
        self.add("the last of the thinnest is of the other sense", readings.iter().rfind(|s| s.0 == t).is_some_and(|s| s.1 != stacked));
        self.add("the first reading is of the other sense", readings[0].1 != stacked);
        self.add("a thickness whose text is rounded from about a half", is_half(100.0 * t));
        if stacked {
            return self.floor(t);
        }
        let (least, nozzle) = (self.print.min_wall, self.print.nozzle);
        let under_nozzle = nozzle.is_some_and(|n| t + SLACK < n);
        if let Some(n) = nozzle {
            self.counts.limit("nozzle", t + SLACK, n);
            self.add(OTHERWISE, under_nozzle != (t < n - SLACK));
            self.add("only the slack is as wide as the nozzle", t < n && !under_nozzle);
            self.add("under the nozzle, but as thick as the least wall", under_nozzle && t + SLACK >= least);
        }
        let thin = t + SLACK < least;
        if !under_nozzle {
            self.counts.limit("least wall", t + SLACK, least);
            self.add(OTHERWISE, thin != (t < least - SLACK));
            self.add("only the slack is as thick as the least wall", t < least && !thin);
            self.add("with a nozzle less than half a wall", nozzle.is_some() && thin && t < 0.5 * least);
        }
        if nozzle.is_none() && thin {
            self.counts.limit("half a wall", t, 0.5 * least);
            self.add("only the slack is half a wall", t < 0.5 * least && t + SLACK >= 0.5 * least);
        }
        under_nozzle || thin
    }

    fn floor(&mut self, t: f64) -> bool {
        let layer = self.print.layer;
        self.counts.limit("layer", t + SLACK, layer);
        self.counts.limit("two layers", t, 2.0 * layer);
        self.add(OTHERWISE, (t + SLACK < layer) != (t < layer - SLACK));
        self.add("only the slack is as thick as a layer", t < layer && t + SLACK >= layer);
        self.add("only the slack is as thick as two layers", t < 2.0 * layer && t + SLACK >= 2.0 * layer);
        let layers = t / layer;
        self.add("layers whose text is rounded from about a half", t < 2.0 * layer && is_half(10.0 * layers));
        self.add("the inverse of the layer would say other layers", t < 2.0 * layer && format!("{layers:.1}") != format!("{:.1}", t * (1.0 / layer)));
        self.add("a floor as thin as a side may not be", t >= 2.0 * layer && t + SLACK < self.print.min_wall);
        t < 2.0 * layer
    }

    fn holes(&mut self) {
        for h in self.measures.rounds().iter().filter(|r| r.hole) {
            let d = 2.0 * h.radius;
            self.counts.limit("least hole", d + SLACK, self.print.min_hole);
            self.add("the slack taken from the least hole would decide otherwise", (d + SLACK < self.print.min_hole) != (d < self.print.min_hole - SLACK));
            self.add("a diameter whose text is rounded from about a half", is_half(100.0 * d));
            self.add("only the slack is as wide as the least hole", d < self.print.min_hole && d + SLACK >= self.print.min_hole);
        }
    }

    fn heights(&mut self, report: &DfmReport) {
        let heights: Vec<f64> = self.body.polygons.iter().flat_map(|p| p.verts.iter()).map(|v| v.dot(self.up)).collect();
        self.add("a height of 0", report.height == Some(0.0));
        let signs = [0.0f64, -0.0].map(|zero| heights.iter().any(|h| h.to_bits() == zero.to_bits()));
        self.add("zeros of both signs for the lowest and the highest", report.height == Some(0.0) && signs == [true; 2]);
        self.add("a height below 1", report.height.is_some_and(|h| 0.0 < h && h < 1.0));
    }
}

fn is_half(x: f64) -> bool {
    (x - x.floor() - 0.5).abs() < 1e-9
}
