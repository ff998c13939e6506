//! Parts and jobs at the limits of the machining rules: cosines and centroids by shape, walls and rounds by a job or a radius that fits what the Rust
//! measures of the part.
use common::field::{set_real, set_word, word};
use common::mesh::{Mesh, Point};
use common::random::Random;
use common::sample::{self, GOOD_FLAGS};
use common::shapes::{block, nudge, pick, shuffle};
use oracle::measures::Measures;

/// Two polygons on one side, the second inclined so little, or reaching so little above the first, that it hangs on a rounding whether they make a
/// corner; in a hollow, so that nothing is open.
pub fn corner(random: &mut Random) -> Mesh {
    let mut mesh = Mesh::empty();
    let other = if random.below(2) == 0 { slope(random) } else { sliver(random) };
    mesh.push((1, 0), vec![[-3.0, 0.0, 0.0], [0.0, 0.0, 0.0], [0.0, 1.0, 0.0], [-3.0, 1.0, 0.0]]);
    mesh.push((1, 1), other);
    block(&mut mesh, 2, [-5.0, -4.0, -4.0], [10.0; 3], true);
    if random.below(4) == 0 {
        shuffle(random, &mut mesh.polygons);
    }
    // by exact quarter turns only, so that the limit is still met
    let turn = random.below(3) as usize;
    mesh.points_mut().for_each(|p| p.rotate_left(turn));
    mesh
}

/// Its normal's z is about 0.99.
fn slope(random: &mut Random) -> Vec<Point> {
    let cosine = nudge(random, 0.99);
    let sine = nudge(random, (1.0 - cosine * cosine).sqrt());
    vec![[0.0; 3], [cosine, 0.0, sine], [cosine, 1.0, sine], [0.0, 1.0, 0.0]]
}

/// Upright; its centroid lies about 1e-9 above the side.
fn sliver(random: &mut Random) -> Vec<Point> {
    let z = nudge(random, 2e-9);
    vec![[0.0; 3], [0.0, 1.0, 0.0], [0.0, 0.75, z], [0.0, 0.25, nudge(random, z)]]
}

/// A job of any process, most often with a material, of any name and often with a min_wall that does not count.
pub fn job(random: &mut Random) -> Vec<u8> {
    let byte = |random: &mut Random| if random.below(8) == 0 { b'|' } else { 0x20 + random.below(0x5f) as u8 };
    let name: Vec<u8> = (0..1 + random.below(40)).map(|_| byte(random)).collect();
    let mut job = sample::job(random.below(5) as u32, pick(random, &GOOD_FLAGS), &name);
    if word(&job, 4) & 1 == 1 {
        set_word(&mut job, 68, random.below(2) as u32);
        let least = pick(random, &[0.0, -0.0, -1.0, -1e4, 5e-324, -5e-324, 1e-300, 1e-9, 0.001, 0.125, 0.375, 0.5, 0.8, 1.0, 2.0, 5.0, 100.0, 1e4]);
        set_real(&mut job, 80, least);
    }
    job
}

/// A material whose minimum is one of the part's readings or twice it, or the next f64.
pub fn fit_wall(random: &mut Random, mesh: &mut Mesh) {
    let Ok(body) = oracle::body(&mesh.bytes()) else { return };
    let readings = Measures::of(&body).readings();
    if readings.is_empty() {
        return;
    }
    let thickness = readings[random.below(readings.len() as u64) as usize].thickness;
    let times = pick(random, &[1.0, 2.0]);
    let least = beside(random, thickness * times);
    mesh.job = sample::job(random.below(5) as u32, 1, b"Alu|6061");
    set_real(&mut mesh.job, 80, least.min(1e4));
}

/// One f64 down or up, or as it is.
fn beside(random: &mut Random, x: f64) -> f64 {
    pick(random, &[x, x.next_down(), x.next_up()])
}

/// Each round with a radius at a limit of its own, or of its length.
pub fn fit_rounds(random: &mut Random, mesh: &mut Mesh) {
    let Ok(body) = oracle::body(&mesh.bytes()) else { return };
    for r in Measures::of(&body).rounds() {
        let limits = [0.5, 0.5, 0.125, 0.375, r.length / 8.0, r.length / 20.0, r.length / 8.5, r.length / 20.5];
        let limit = pick(random, &limits);
        let radius = beside(random, limit).clamp(0.001, 1e4);
        mesh.set_radius((r.id.feature, r.id.index), radius);
    }
}
