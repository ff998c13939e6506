//! Parts to time, each with a name: plates with bores and pockets, and many small faces.
use common::field::set_real;
use common::generate::file;
use common::generate::job::{Job, CNC};
use common::generate::part::Part;
use common::generate::plate::{cuts, plate, slab, Cell};
use common::generate::ring::Ring;
use common::{sample, voxels};

const WIDTH: f64 = 10.0;
const THICK: f64 = 12.0;

/// What a plate is full of, by turns: a bore, a pocket, one with round corners, and a pocket again.
pub struct Cells {
    /// Of the bore.
    pub radius: f64,
    /// Half of what stands between two pockets.
    pub wall: f64,
    pub floor: f64,
}

impl Cells {
    fn cell(&self, number: usize, x: f64, y: f64) -> Cell {
        let inner = [x + self.wall, y + self.wall, x + WIDTH - self.wall, y + WIDTH - self.wall];
        match number % 4 {
            0 => Cell::Through(Ring::circle((x + 5.0, y + 5.0), self.radius, 32)),
            2 => Cell::Blind(Ring::rounded(inner, 0.4, 3), THICK - self.floor),
            _ => Cell::Blind(Ring::rectangle(inner), THICK - self.floor),
        }
    }

    /// A plate of so many columns and rows of them at this height. Its name, and how far it reaches.
    pub fn put(&self, part: &mut Part, low: f64, nx: usize, ny: usize) -> (String, [f64; 2]) {
        let (xs, ys) = (cuts(&vec![WIDTH; nx]), cuts(&vec![WIDTH; ny]));
        let cells: Vec<Cell> = (0..nx * ny).map(|k| self.cell(k, xs[k / ny], ys[k % ny])).collect();
        plate(part, &slab(1, low, low + THICK, (64, 64)), &xs, &ys, &cells);
        (format!("a plate with {} bores and pockets", nx * ny), [xs[nx], ys[ny]])
    }
}

/// Deep and small bores, sharp pockets with thin walls and floor, and ones with tight corners.
fn with_cells(nx: usize, ny: usize) -> (String, Vec<u8>) {
    let mut part = Part::default();
    let (name, _) = Cells { radius: 0.45, wall: 0.3, floor: 0.5 }.put(&mut part, 0.0, nx, ny);
    (name, file::bytes(&part, &Job::defaults(CNC)))
}

/// Of a material that needs walls as thick as the pits are apart.
fn small_faces() -> (String, Vec<u8>) {
    let mut mesh = voxels::pits(340, 0);
    mesh.job = sample::job(CNC, 1, b"Nylon");
    set_real(&mut mesh.job, 80, 5.0);
    ("340 pits of three walls, each a face".into(), mesh.bytes())
}

pub fn all() -> Vec<(String, Vec<u8>)> {
    vec![with_cells(2, 3), with_cells(3, 7), with_cells(6, 14), with_cells(7, 15), small_faces()]
}
