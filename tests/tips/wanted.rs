//! What the comparison is to see, and how often each of it occurs in a part. The hole rule stands here once more, over the offsets of every vertex, as it is and
//! as it was when a vertex near the axis counted as (2^20, 0).
use crate::tips::NEAR;
use against::counts::Counts;
use against::frame::Rules;
use common::ids::Id;
use common::mesh::Mesh;
use oracle::faults::{DfmReport, Part};
use oracle::math::Vec3;
use oracle::measures::{Measures, Round};
use std::f64::consts::TAU;

const WANTED: [(&str, u64); 17] = [
    ("accepted", 200_000),
    ("refused 1 to 7", 0),
    ("refused 8", 10),
    ("refused 9", 0),
    ("fewer rows than faults", 1_000),
    ("a tip in the bore's face", 50_000),
    ("a tip in a face apart", 30_000),
    ("open over 0.1 to 0.2 rad", 10_000),
    ("open over 0.2 to 0.3 rad", 10_000),
    ("open over 0.3 to 0.4 rad", 10_000),
    ("a hole with its tip", 5_000),
    ("once a hole by its tip", 5_000),
    ("once a hole by its tip, told as a corner", 1_000),
    ("a hole by a vertex on the limit", 500),
    ("no hole by a vertex one f64 below the limit", 500),
    ("a face on the axis", 2_000),
    ("a face on the axis beside a bore", 500),
];

/// A vertex is as far from the axis, one f64 less and one more.
const LIMITS: [&str; 1] = ["1e-6 from the axis"];

pub struct Tips;

impl Rules for Tips {
    const PROCESSES: &'static [u32] = &[0, 1, 2, 3, 4];

    fn wanted() -> Counts {
        Counts::wanted(&WANTED, &LIMITS)
    }

    fn note(counts: &mut Counts, mesh: &Mesh, _: &[Id], part: &Part, report: &DfmReport) {
        let rounds = Measures::of(part.body()).rounds();
        for r in rounds.iter().filter(|r| r.concave) {
            let offsets = Offsets::of(mesh, r);
            offsets.note(counts, r, rounds.len());
            let as_corner = ["Tight inside radius", "Deep inside corner"];
            if offsets.was_hole() && !r.hole && report.findings.iter().any(|f| as_corner.contains(&f.rule) && f.faces.contains(&r.id)) {
                counts.add("once a hole by its tip, told as a corner", 1);
            }
        }
    }
}

type Direction = (i64, i64);

/// Along x and y about the axis of a round.
struct Offsets {
    own: Vec<(f64, f64)>,
    /// Of the vertices of other faces.
    others: Vec<(f64, f64)>,
}

fn length((x, y): (f64, f64)) -> f64 {
    (x * x + y * y).sqrt()
}

fn direction((x, y): (f64, f64)) -> Direction {
    let whole = |c: f64| (c / length((x, y)) * 1048576.0).round() as i64;
    (whole(x), whole(y))
}

fn goes_round(mut list: Vec<Direction>) -> bool {
    list.sort();
    list.dedup();
    let follows = |a: &Direction, b: &Direction| {
        let (cross, dot) = (a.0 * b.1 - a.1 * b.0, a.0 * b.0 + a.1 * b.1);
        0 < cross && 100_000 * cross < 20_271 * dot
    };
    !list.is_empty() && list.iter().all(|a| list.iter().any(|b| follows(a, b)))
}

impl Offsets {
    fn of(mesh: &Mesh, r: &Round) -> Offsets {
        let x = r.axis.any_perpendicular().normalized();
        let y = r.axis.cross(x);
        let (mut own, mut others) = (Vec::new(), Vec::new());
        for p in &mesh.polygons {
            let list = if p.face() == (r.id.feature, r.id.index) { &mut own } else { &mut others };
            for v in &p.points {
                let d = Vec3 { x: v[0], y: v[1], z: v[2] } - r.origin;
                list.push((d.dot(x), d.dot(y)));
            }
        }
        Offsets { own, others }
    }

    /// Of the vertices for which this holds of their distance.
    fn directions(&self, counts: impl Fn(f64) -> bool) -> Vec<Direction> {
        self.own.iter().filter(|o| counts(length(**o))).map(|o| direction(*o)).collect()
    }

    /// By the rule that counted a vertex near the axis.
    fn was_hole(&self) -> bool {
        goes_round(self.own.iter().map(|o| if length(*o) < NEAR { (1 << 20, 0) } else { direction(*o) }).collect())
    }

    /// The widest angle between two neighbours.
    fn widest(&self) -> f64 {
        let mut angles: Vec<f64> = self.own.iter().filter(|o| length(**o) >= NEAR).map(|o| o.1.atan2(o.0)).collect();
        angles.sort_by(f64::total_cmp);
        let first = angles.first().map(|a| a + TAU);
        let next = angles.iter().skip(1).copied().chain(first);
        angles.iter().zip(next).map(|(a, b)| b - a).fold(0.0, f64::max)
    }

    fn note(&self, counts: &mut Counts, r: &Round, rounds: usize) {
        let is_near = |o: &(f64, f64)| length(*o) < NEAR;
        let (tips, left) = (self.own.iter().filter(|o| is_near(o)).count(), self.directions(|l| l >= NEAR));
        let (is, was) = (goes_round(left.clone()), self.was_hole());
        assert!(is == r.hole, "the hole rule of the test is not the oracle's");
        // a direction more lies between two that follow one another
        assert!(was || !is, "a hole that was none before");
        self.own.iter().for_each(|o| counts.limit("1e-6 from the axis", length(*o), NEAR));
        if left.is_empty() {
            counts.add("a face on the axis", 1);
            counts.add("a face on the axis beside a bore", u64::from(rounds > 1));
            return;
        }
        if tips == 0 {
            counts.add("a tip in a face apart", u64::from(self.others.iter().any(is_near)));
        } else {
            counts.add("a tip in the bore's face", 1);
            counts.add("a hole with its tip", u64::from(is));
            counts.add("once a hole by its tip", u64::from(was && !is));
            let names = ["open over 0.1 to 0.2 rad", "open over 0.2 to 0.3 rad", "open over 0.3 to 0.4 rad"];
            let tenths = (self.widest() * 10.0) as usize;
            names.iter().enumerate().filter(|(k, _)| k + 1 == tenths).for_each(|(_, what)| counts.add(what, 1));
        }
        let on = is && !goes_round(self.directions(|l| l > NEAR));
        counts.add("a hole by a vertex on the limit", u64::from(on));
        let below = !is && goes_round(self.directions(|l| l >= NEAR.next_down()));
        counts.add("no hole by a vertex one f64 below the limit", u64::from(below));
    }
}
