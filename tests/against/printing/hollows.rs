//! Hollows: in hollows, beside each other, touching or just not, of about no volume, and as many as there are rows.
use crate::printing::fit::beside;
use crate::printing::{jobs, over};
use common::mesh::{Mesh, Point};
use common::random::Random;
use common::shapes::{block, pick, shuffle};

/// Between bodies: of one key of 1e5, of the next one, of one key of 1e4, apart.
const GAPS: [f64; 12] = [0.0, 0.0, 4e-6, 5e-6, 6e-6, 1e-5, 2e-5, 4e-5, 5e-5, 6e-5, 1e-4, 1.0];

pub fn draw(random: &mut Random) -> Mesh {
    let mut mesh = match random.below(8) {
        0..=2 => nested(random),
        3 | 4 => beside_each_other(random),
        5 => tiny(random),
        6 => fans(random),
        _ => sums(random),
    };
    mesh.job = jobs::draw(random);
    mesh
}

/// Boxes in boxes, wound outward and inward in turn or by chance, some with a second one beside it.
fn nested(random: &mut Random) -> Mesh {
    let mut mesh = Mesh::empty();
    let (mut low, mut size) = ([0.0; 3], [40.0; 3]);
    let in_turn = random.below(3) != 0;
    let alike = random.below(3) == 0;
    for k in 0..2 + random.below(6) as u32 {
        let inward = if in_turn { k % 2 == 1 } else { random.below(2) == 0 };
        let feature = if alike { 1 } else { k };
        block(&mut mesh, feature, low, size, inward);
        let share = pick(random, &[0.1, 0.02, 0.2, 0.0, 1e-6]);
        (0..3).for_each(|axis| low[axis] += share * size[axis]);
        size = size.map(|s| s * (1.0 - 2.0 * share));
        if random.below(3) == 0 {
            // two in the next one's place
            let half = [0.45 * size[0], size[1], size[2]];
            let other = [low[0] + 0.55 * size[0], low[1], low[2]];
            block(&mut mesh, feature + 50, other, half, !inward);
            size = half;
        }
    }
    mixed(random, mesh)
}

/// Blocks in a row, each touching the one before at a corner, an edge, a side or just not; most of them wound inward.
fn beside_each_other(random: &mut Random) -> Mesh {
    let mut mesh = Mesh::empty();
    let mut low = [pick(random, &[0.0, 0.0, 0.000005, 0.00005, -1000.0]); 3];
    for k in 0..2 + random.below(5) as u32 {
        let size = [0; 3].map(|_| 1.0 + random.below(4) as f64 / 4.0);
        block(&mut mesh, k % 3, low, size, random.below(3) != 0);
        let (gap, axes) = (pick(random, &GAPS), 1 + random.below(3) as usize);
        (0..axes).for_each(|axis| low[axis] += size[axis] + gap);
    }
    mixed(random, mesh)
}

fn mixed(random: &mut Random, mut mesh: Mesh) -> Mesh {
    if random.below(2) == 0 {
        shuffle(random, &mut mesh.polygons);
    }
    mesh
}

/// A triangle of this volume, negative where it is wound inward: from (x, 0, 0), so that a sixth of x is exact but for the division.
fn triangle(x: f64, at: f64) -> Vec<Point> {
    vec![[6.0 * x, 0.0, at], [0.0, 1.0, at], [0.0, 0.0, at + 1.0]]
}

/// Boxes and triangles of a volume about -1e-9, which is none.
fn tiny(random: &mut Random) -> Mesh {
    let mut mesh = Mesh::empty();
    for k in 0..1 + random.below(3) as u32 {
        if random.below(3) == 0 {
            let side = pick(random, &[0.001, 0.001, 0.0005, 0.002]);
            let size = [side, 0.001, 1e-9 / side / 0.001].map(|s| beside(random, s));
            block(&mut mesh, k, [0.0; 3].map(|c| c + 5.0 * f64::from(k)), size, random.below(8) != 0);
        } else {
            let x = pick(random, &[-1e-9, -1e-9, -1e-9, 1e-9, -2e-9]);
            // far from the others: the volume is x times the height of the lowest corner, and so of the first alone as it is
            let points = triangle(beside(random, x), if k == 0 { 0.0 } else { 5.0 * f64::from(k) });
            mesh.push((random.below(2) as u32, k), points);
        }
    }
    mixed(random, mesh)
}

/// Triangles about one corner, of each face several; the same with another body that keys of 1e4 would join to it.
fn fans(random: &mut Random) -> Mesh {
    let mut mesh = Mesh::empty();
    for body in 0..1 + random.below(3) {
        let apart = body as f64 * pick(random, &GAPS);
        for k in 0..1 + random.below(5) {
            let x = (k + 1) as f64 * pick(random, &[-1.0, -1.0, -1.0, 1.0]);
            let points: Vec<Point> = triangle(x, 0.0).into_iter().map(|[x, y, z]| [x + apart, y + apart, z + apart]).collect();
            mesh.push((body as u32, random.below(3) as u32), points);
        }
    }
    mixed(random, mesh)
}

/// A hollow whose volume is about a half of its last decimal, so that the text hangs on the order in which its polygons are added.
fn sums(random: &mut Random) -> Mesh {
    let mut mesh = Mesh::empty();
    let count = 3 + random.below(5) as usize;
    let (volumes, _) = over::tie(random, count, |volume| 6.0 * volume / 6.0);
    for (k, volume) in volumes.into_iter().enumerate() {
        mesh.push((1, random.below(3) as u32 + 3 * k as u32), triangle(-volume, 0.0));
    }
    mesh
}

/// So many hollows of one triangle each, apart.
pub fn many(random: &mut Random, count: usize) -> Mesh {
    let mut mesh = Mesh::empty();
    for k in 0..count {
        let (x, y) = (2.0 * (k % 64) as f64, 2.0 * (k / 64) as f64);
        mesh.push((1, k as u32 % 1000), vec![[x, y, 1.0], [x, y + 1.0, 1.0], [x + 1.0, y, 1.0]]);
    }
    mesh.job = jobs::draw(random);
    let process = pick(random, &[3, 4]);
    common::field::set_word(&mut mesh.job, 0, process);
    jobs::change(&mut mesh.job, |print| print.overhang = None);
    mesh
}
