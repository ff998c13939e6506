//! Parts to time, each with a name, of about 200, 800, 3,200 and 4,000 polygons: plates with bores and pockets on feet, blocks full of hollows, and rings whose
//! faces lean by every angle.
use crate::plates::Cells;
use common::generate::file;
use common::generate::job::Job;
use common::generate::part::{Kind, Part};
use common::generate::space::turn;

const FEET: f64 = 5.0;

/// Small bores, pockets with thin walls and a floor of few layers, and ones with round corners; on feet.
fn with_cells(nx: usize, ny: usize) -> (String, Part) {
    let mut part = Part::default();
    let (name, [x, y]) = Cells { radius: 0.2, wall: 0.15, floor: 0.08 }.put(&mut part, FEET, nx, ny);
    for k in 0..4 {
        let (x, y) = ([0.0, x - 2.0][k / 2], [0.0, y - 2.0][k % 2]);
        part.block(900 + k as u32, [x, y, 0.0], [x + 2.0, y + 2.0, FEET]);
    }
    (name, part)
}

/// So many closed hollows in a block, with thin walls between them; each is a face.
fn with_hollows(count: usize) -> (String, Part) {
    let mut part = Part::default();
    let rows = count.div_ceil(20) as f64;
    part.block(1, [0.0; 3], [40.3, 2.0 * rows + 0.3, 3.0]);
    for k in 0..count {
        let low = [2.0 * (k % 20) as f64 + 0.3, 2.0 * (k / 20) as f64 + 0.3, 0.3];
        part.hollow(2 + k as u32, low, [low[0] + 1.7, low[1] + 1.7, 2.7]);
    }
    part.polygons.iter_mut().for_each(|p| p.face.1 = 0);
    (format!("a block with {count} hollows"), part)
}

/// A tube bent to a ring that stands on its side, of so many quads along and around; a face for each so many.
fn bent(along: usize, around: usize, to_a_face: usize) -> (String, Part) {
    let at = |i: usize, j: usize| {
        let share = |k: usize, n: usize| turn((k % n) as f64 / n as f64);
        let ((c, s), (d, t)) = (share(i, along), share(j, around));
        let r = 50.0 + 20.0 * d;
        [r * c, 20.0 * t, r * s]
    };
    let mut part = Part::default();
    for k in 0..along * around {
        let (i, j) = (k / around, k % around);
        let quad = vec![at(i, j), at(i, j + 1), at(i + 1, j + 1), at(i + 1, j)];
        part.push((1, (k / to_a_face) as u32), Kind::Plane, quad);
    }
    (format!("a ring of {along} by {around} quads"), part)
}

pub fn all(process: u32) -> Vec<(String, Vec<u8>)> {
    let parts = [
        with_cells(2, 3),
        with_hollows(33),
        bent(20, 10, 1),
        with_cells(3, 7),
        with_hollows(133),
        bent(40, 20, 4),
        with_cells(6, 14),
        with_hollows(533),
        bent(80, 40, 16),
        with_cells(7, 15),
        with_hollows(666),
    ];
    let job = Job::defaults(process);
    parts.map(|(name, part)| (name, file::bytes(&part, &job))).to_vec()
}
