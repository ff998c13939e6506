//! What hangs over, and what nearly did.
use crate::steps::Steps;
use against::printing::fit::SLACK;
use oracle::lists::Lists;
use oracle::math::Vec3;
use oracle::measures::Round;
use oracle::sine::of_tenths;
use oracle::solid::{FaceId, Polygon};
use std::collections::BTreeMap;

const LEAST_AREA: f64 = 0.01;
const WIDEST: f64 = 10.0;

/// What polygons are held against.
struct Lean {
    up: Vec3,
    steep: f64,
    plate: f64,
}

impl Lean {
    fn of(steps: &Steps, tenths: u32) -> Lean {
        let heights = steps.body.polygons.iter().flat_map(|p| p.verts.iter()).map(|v| v.dot(steps.up));
        let (base, top) = heights.fold((f64::INFINITY, f64::NEG_INFINITY), |(low, high), h| (low.min(h), high.max(h)));
        Lean { up: steps.up, steep: of_tenths(tenths as usize), plate: base + 1e-6 * (top - base).max(1.0) }
    }

    fn dip(&self, p: &Polygon) -> f64 {
        -p.normal.dot(self.up)
    }

    fn bridges(&self, h: &Round) -> bool {
        2.0 * h.radius <= WIDEST && h.axis.dot(self.up).abs() < 0.1
    }
}

/// How many faces hang over.
pub fn of(steps: &mut Steps) -> usize {
    let Some(tenths) = steps.print.overhang else { return 0 };
    let lean = Lean::of(steps, tenths);
    let rounds = steps.measures.rounds();
    let areas: Vec<f64> = Lists::of(steps.body).polygons.iter().map(|p| p.area).collect();
    let mut faces: BTreeMap<FaceId, Vec<f64>> = BTreeMap::new();
    let mut numbers: Vec<FaceId> = Vec::new();
    for (p, area) in steps.body.polygons.iter().zip(areas) {
        if !numbers.contains(&p.tag.id) {
            numbers.push(p.tag.id);
        }
        if hangs(steps, &lean, &rounds, p) {
            faces.entry(p.tag.id).or_default().push(area);
        }
    }
    let some = steps.body.polygons.iter().any(|p| faces.contains_key(&p.tag.id) && lean.dip(p) <= lean.steep + SLACK);
    steps.add("a face of which some polygons hang over", some);
    kept(steps, faces, &numbers)
}

/// Whether a polygon hangs over.
fn hangs(steps: &mut Steps, lean: &Lean, rounds: &[Round], p: &Polygon) -> bool {
    let dip = lean.dip(p);
    steps.counts.limit("lean of the sine", dip, lean.steep);
    steps.counts.limit("lean of the sine and the slack", dip, lean.steep + SLACK);
    steps.add("only the slack keeps it from leaning too far", dip > lean.steep && dip <= lean.steep + SLACK);
    if dip <= lean.steep + SLACK {
        return false;
    }
    if bridged(steps, lean, rounds, p) {
        return false;
    }
    let below = p.verts.iter().filter(|v| v.dot(lean.up) < lean.plate).count();
    p.verts.iter().for_each(|v| steps.counts.limit("plate", v.dot(lean.up), lean.plate));
    steps.add("an underside on the plate", below == p.verts.len());
    steps.add("an underside of which some corners are on the plate", 0 < below && below < p.verts.len());
    below < p.verts.len()
}

fn bridged(steps: &mut Steps, lean: &Lean, rounds: &[Round], p: &Polygon) -> bool {
    let Some(round) = rounds.iter().find(|r| r.id == p.tag.id) else { return false };
    let (d, cosine) = (2.0 * round.radius, round.axis.dot(lean.up).abs());
    steps.add("a bore that is no hole", round.concave && !round.hole && lean.bridges(round));
    if !round.hole {
        return false;
    }
    if cosine < 0.1 {
        steps.counts.limit("hole that bridges", d, WIDEST);
        steps.add("a level hole too wide to bridge", d > WIDEST);
    }
    if d <= WIDEST {
        steps.counts.limit("axis that leans", cosine, 0.1);
        steps.add("a hole too steep to bridge", cosine >= 0.1);
    }
    steps.add("a hole that bridges", lean.bridges(round));
    steps.add("a flat underside of a face that bridges", lean.bridges(round) && lean.dip(p) > 0.999);
    lean.bridges(round)
}

/// How many are large enough.
fn kept(steps: &mut Steps, faces: BTreeMap<FaceId, Vec<f64>>, numbers: &[FaceId]) -> usize {
    let sum = |areas: &[f64]| areas.iter().fold(0.0, |sum, a| sum + a);
    let text = |area: f64| format!("{area:.1}");
    let reversed = |areas: &[f64]| areas.iter().rev().fold(0.0, |sum, a| sum + a);
    for areas in faces.values() {
        steps.counts.limit("area", sum(areas), LEAST_AREA);
        steps.add("a face of several polygons about as large as counts", areas.len() > 1 && (sum(areas) - LEAST_AREA).abs() < 1e-9);
    }
    let kept: BTreeMap<FaceId, f64> = faces.iter().map(|(id, areas)| (*id, sum(areas))).filter(|(_, area)| *area >= LEAST_AREA).collect();
    steps.add("some faces too small to count beside others", !kept.is_empty() && kept.len() < faces.len());
    let by_id: Vec<f64> = kept.values().copied().collect();
    let by_number: Vec<f64> = numbers.iter().filter_map(|id| kept.get(id).copied()).collect();
    let otherwise: Vec<f64> = faces.iter().filter(|(id, _)| kept.contains_key(id)).map(|(_, areas)| reversed(areas)).collect();
    steps.add("the area is another by the order of numbers", text(sum(&by_id)) != text(sum(&by_number)));
    steps.add("the area is another by the order of polygons", text(sum(&by_id)) != text(sum(&otherwise)));
    kept.len()
}
