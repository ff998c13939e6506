//! Parts as they are with radii at the limits of the sheet metal rules, and parts of as many faults as there are rows.
use common::bores::Axis;
use common::field::word;
use common::mesh::{Mesh, Point};
use common::random::Random;
use common::sample;
use common::shapes::{block, pick};
use oracle::faults::{Part, Process};
use oracle::measures::{seg_distance, Measures, Round};

/// The slack that the rules add before they compare.
const SLACK: f64 = 1e-9;

/// A few f64 down or up, or as it is.
fn beside(random: &mut Random, x: f64) -> f64 {
    pick(random, &[x, x.next_down(), x.next_up(), x.next_down().next_down(), x.next_up().next_up()])
}

/// Each round with a radius at a limit of the thickness that the Rust measures: insides against the ratio, outsides a thickness larger or nearly,
/// holes against the least size.
pub fn fit_rounds(random: &mut Random, mesh: &mut Mesh) {
    let Ok(part) = Part::read(&mesh.bytes()) else { return };
    let Some(t) = part.report(Process::SheetMetal).thickness else { return };
    let with_ratio = word(&mesh.job, 4) & 8 != 0;
    let ratio = if with_ratio { f64::from(word(&mesh.job, 72)) / 1000.0 } else { 1.0 };
    let inside = beside(random, ratio * t - SLACK).clamp(0.001, 5e3);
    let measures = Measures::of(part.body());
    for r in measures.rounds() {
        let (least, more) = (pick(random, &[1.0, 1.2]) * t, pick(random, &[1.0, 1.0, 1.05, 0.95]) * t);
        let radius = match (r.concave, r.hole) {
            (true, true) if random.below(2) == 0 => 0.5 * beside(random, least - SLACK),
            (true, true) => reaching(random, &measures, &r, [2.0 * t, 2.5 * t + inside]),
            (true, false) => inside,
            _ => inside + beside(random, more),
        };
        mesh.set_radius((r.id.feature, r.id.index), radius.clamp(0.001, 1e4));
    }
}

/// A radius that leaves one of these gaps to the nearest edge, or none, or less; or one whose text is rounded from a half.
fn reaching(random: &mut Random, measures: &Measures, hole: &Round, needed: [f64; 2]) -> f64 {
    let plates = measures.neighbours(hole.id);
    let edges = plates.iter().flat_map(|(plate, _)| measures.neighbours(*plate)).filter(|(id, _)| *id != hole.id && plates.iter().all(|p| p.0 != *id));
    let nearest = edges.flat_map(|(_, segments)| segments.iter()).map(|s| seg_distance(hole.centre, *s)).fold(f64::INFINITY, f64::min);
    if nearest == f64::INFINITY || random.below(8) == 0 {
        return pick(random, &[0.0625, 0.1875, 0.3125]);
    }
    let left = pick(random, &needed) - SLACK;
    let gap = pick(random, &[left, left, 0.0, 0.125, -0.1 * nearest, -0.5 * nearest]);
    beside(random, nearest - gap)
}

/// Upright flaps on one outside, each a short flange of every inside; so many insides, of which some are tight.
pub fn many_faults(insides: usize, flaps: usize, tight: usize) -> Mesh {
    let mut mesh = Mesh::empty();
    block(&mut mesh, 1, [100.0, 0.0, 0.0], [200.0, 200.0, 2.0], false);
    let axis = |radius: f64| Axis { origin: [0.0; 3], dir: [0.0, 0.0, 1.0], radius };
    for k in 0..insides {
        let z = 3.0 * k as f64;
        mesh.push((2, k as u32), vec![[1.0, 0.0, z], [1.0, 0.0, z + 1.0], [1.0, 1.0, z + 1.0], [1.0, 1.0, z]]);
        let radius = if k < tight { 1.95 } else { 2.05 };
        axis(radius).on(mesh.polygons.last_mut().unwrap());
    }
    // its upright side in as many segments as there are flaps
    let at = |k: usize| [-3.0, 0.0, k as f64];
    let mut outside: Vec<Point> = vec![[-3.0, -2.0, flaps as f64], [-3.0, -2.0, 0.0]];
    outside.extend((0..=flaps).map(at));
    outside.reverse();
    mesh.push((3, 0), outside);
    axis(4.0).on(mesh.polygons.last_mut().unwrap());
    for k in 0..flaps {
        let (s, c) = (0.2 * (k + 1) as f64).sin_cos();
        mesh.push((4, k as u32), vec![at(k), at(k + 1), [-3.0 - c, s, k as f64]]);
    }
    mesh.job = sample::job((insides % 5) as u32, 0, b"");
    mesh
}
