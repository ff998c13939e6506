//! Jobs at the limits of what the Rust measures of a part, or one f64 beside: so each limit is met on any part, wherever it stands.
use crate::printing::jobs::{self, Print};
use crate::printing::ups;
use common::mesh::Mesh;
use common::random::Random;
use common::shapes::pick;
use oracle::faults::Part;
use oracle::measures::Measures;
use oracle::sine::of_tenths;
use oracle::solid::FaceId;

/// The slack that the rules add before they compare.
pub const SLACK: f64 = 1e-9;

/// A few f64 down or up, or as it is.
pub fn beside(random: &mut Random, x: f64) -> f64 {
    pick(random, &[x, x, x.next_down(), x.next_up(), x.next_down().next_down(), x.next_up().next_up()])
}

/// A limit at a measure and the slack; just there where an f64 is coarser with the slack, which is said too.
fn with_slack(random: &mut Random, x: f64) -> (bool, f64) {
    let coarser = x.to_bits() >> 52 != (x + SLACK).to_bits() >> 52;
    (coarser, if coarser { x + SLACK } else { beside(random, x + SLACK) })
}

fn any<T>(random: &mut Random, list: Vec<T>) -> Option<T> {
    if list.is_empty() {
        return None;
    }
    let k = random.below(list.len() as u64) as usize;
    list.into_iter().nth(k)
}

/// What is fitted.
#[derive(Clone, Copy)]
pub enum Fit {
    Wall,
    Sense,
    Lean,
    Hole,
    Axis,
}

pub const ALL: [Fit; 8] = [Fit::Wall, Fit::Wall, Fit::Wall, Fit::Sense, Fit::Lean, Fit::Lean, Fit::Hole, Fit::Axis];

/// A number of the job fitted to the part, if there is something to fit it to.
pub fn fitted(random: &mut Random, mesh: &mut Mesh, what: Fit) {
    let Ok(part) = Part::read(&mesh.bytes()) else { return };
    let measures = Measures::of(part.body());
    let mut print = Print::of(&mesh.job);
    match what {
        Fit::Wall => wall(random, &measures, &mut print),
        Fit::Sense => sense(random, &measures, &mut print),
        Fit::Lean => lean(random, &part, &mut print),
        Fit::Hole => hole(random, &measures, &mut print, mesh),
        Fit::Axis => axis(random, &measures, &mut print),
    }
    print.put(&mut mesh.job);
}

/// A layer, half of two, the nozzle, the least wall or half of it is as thick as a wall; most often up makes it a floor or a side as is needed for that.
fn wall(random: &mut Random, measures: &Measures, print: &mut Print) {
    let Some(reading) = any(random, measures.readings()) else { return };
    let key = |a: FaceId, b: FaceId| (a.min(b), a.max(b));
    let alike = |a: FaceId, b: FaceId| key(a, b) == key(reading.face, reading.hit);
    let thinnest = measures.readings().iter().filter(|s| alike(s.face, s.hit)).map(|s| s.thickness).fold(f64::INFINITY, f64::min);
    let (coarser, with_slack) = with_slack(random, thinnest);
    let t = beside(random, thinnest);
    let n = reading.normal;
    let (floor, side) = ([n.x, n.y, n.z], ups::with_cosine(random, n, 0.0));
    if random.below(4) != 0 {
        print.up = if random.below(2) == 0 { floor } else { side };
    }
    if print.up == floor {
        // so many layers that their text is rounded from about a half
        let layers = 1.05 + 0.1 * random.below(10) as f64;
        let some = beside(random, thinnest / layers);
        print.layer = if coarser { with_slack } else { pick(random, &[with_slack, t, 0.5 * t, some]) };
        return;
    }
    match random.below(if coarser { 2 } else { 3 }) {
        0 => print.nozzle = Some(with_slack),
        1 => (print.min_wall, print.nozzle) = (with_slack, pick(random, &[None, print.nozzle])),
        _ => (print.min_wall, print.nozzle) = (2.0 * t, pick(random, &[None, None, print.nozzle])),
    }
}

/// Up leans from a reading to where it is no floor or roof.
fn sense(random: &mut Random, measures: &Measures, print: &mut Print) {
    let Some(reading) = any(random, measures.readings()) else { return };
    let cosine = pick(random, &[0.99, -0.99]);
    let cosine = beside(random, cosine);
    print.up = ups::with_cosine(random, reading.normal, cosine);
    (print.layer, print.min_wall) = (1e3, pick(random, &[0.0, 1e4, 1e4]));
    print.nozzle = pick(random, &[None, Some(1e3)]);
}

/// Up leans from a polygon by the sine of the limit, most often with the slack.
fn lean(random: &mut Random, part: &Part, print: &mut Print) {
    let normals = part.body().polygons.iter().map(|p| p.normal).collect();
    let Some(normal) = any(random, normals) else { return };
    let tenths = jobs::tenths(random);
    let dip = of_tenths(tenths as usize) + pick(random, &[SLACK, SLACK, 0.0]);
    let dip = beside(random, dip);
    (print.overhang, print.up) = (Some(tenths), ups::with_cosine(random, normal, -dip));
}

/// The least hole is as wide as one; or holes say that they are as wide as still bridge.
fn hole(random: &mut Random, measures: &Measures, print: &mut Print, mesh: &mut Mesh) {
    let holes = measures.rounds().into_iter().filter(|r| r.hole);
    let Some(hole) = any(random, holes.collect()) else { return };
    // as wide as bridges; a little below a power of two; in its text rounded from a half
    let others = [5.0, 5.0, 5.0f64.next_up(), 5.0f64.next_down(), 0.4999999997, 0.9999999999, 0.2499999998, 0.0625, 0.1875];
    let radius = pick(random, &others);
    let radius = if random.below(2) == 0 { radius } else { hole.radius };
    mesh.set_radius((hole.id.feature, hole.id.index), radius);
    if random.below(3) != 0 {
        print.min_hole = with_slack(random, 2.0 * radius).1;
    }
}

/// Up leans from a hole's axis to where it no longer bridges.
fn axis(random: &mut Random, measures: &Measures, print: &mut Print) {
    let holes = measures.rounds().into_iter().filter(|r| r.hole);
    let Some(hole) = any(random, holes.collect()) else { return };
    let cosine = pick(random, &[0.1, -0.1]);
    let cosine = beside(random, cosine);
    print.up = ups::with_cosine(random, hole.axis, cosine);
    print.overhang = Some(pick(random, &[0, 300, 450, 600]));
}
