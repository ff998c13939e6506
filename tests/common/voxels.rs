//! Parts in the cells of a grid, filled or not: steps, slots, pockets, ribs, hollows and roofs. Their sides are cut where the grid is cut, so that
//! two faces meet in several segments.
use crate::bores::Frame;
use crate::field::set_word;
use crate::mesh::{Mesh, Point};
use crate::random::Random;
use crate::shapes::{block, nudge, pick, shuffle};

const WIDTHS: [f64; 14] = [1.0, 2.0, 5.0, 3.0, 1.5, 0.5, 10.0, 0.8, 0.4, 0.3, 0.05, 0.625, 6.0, 18.0];

struct Grid {
    cuts: [Vec<f64>; 3],
    full: Vec<bool>,
}

impl Grid {
    fn draw(random: &mut Random) -> Grid {
        let (alike, width) = (random.below(2) == 0, pick(random, &WIDTHS));
        let cuts = [0; 3].map(|_| {
            let mut cuts = vec![pick(random, &[0.0, 0.0, -1.0, 0.1])];
            for k in 0..1 + random.below(4) as usize {
                let wide = if alike { width } else { pick(random, &WIDTHS) };
                cuts.push(cuts[k] + nudge(random, wide));
            }
            cuts
        });
        let mut grid = Grid { full: vec![true; cuts.iter().map(|c| c.len() - 1).product()], cuts };
        (0..random.below(4)).for_each(|_| grid.take_out(random));
        if random.below(4) == 0 {
            grid.full.iter_mut().for_each(|f| *f ^= random.below(4) == 0);
        }
        grid
    }

    fn cells(&self, axis: usize) -> usize {
        self.cuts[axis].len() - 1
    }

    fn number(&self, cell: [usize; 3]) -> usize {
        (cell[0] * self.cells(1) + cell[1]) * self.cells(2) + cell[2]
    }

    fn all(&self) -> Vec<[usize; 3]> {
        let (ny, nz) = (self.cells(1), self.cells(2));
        (0..self.full.len()).map(|k| [k / nz / ny, k / nz % ny, k % nz]).collect()
    }

    /// The cells of a block, out of which a slot, a pocket or a hollow is made.
    fn take_out(&mut self, random: &mut Random) {
        let range = |axis: usize| {
            let [a, b] = [0; 2].map(|_| random.below(self.cells(axis) as u64) as usize);
            [a.min(b), a.max(b)]
        };
        let ranges = [0, 1, 2].map(range);
        for cell in self.all() {
            if (0..3).all(|k| ranges[k][0] <= cell[k] && cell[k] <= ranges[k][1]) {
                let number = self.number(cell);
                self.full[number] = false;
            }
        }
    }

    /// The cell to this side is filled.
    fn is_full_beside(&self, mut cell: [usize; 3], axis: usize, upper: bool) -> bool {
        if cell[axis] == if upper { self.cells(axis) - 1 } else { 0 } {
            return false;
        }
        cell[axis] = if upper { cell[axis] + 1 } else { cell[axis] - 1 };
        self.full[self.number(cell)]
    }

    /// The side of a cell, seen from outside.
    fn side(&self, cell: [usize; 3], axis: usize, upper: bool) -> Vec<Point> {
        let corner = |du: usize, dv: usize| {
            let mut at = cell;
            at[axis] += usize::from(upper);
            at[(axis + 1) % 3] += du;
            at[(axis + 2) % 3] += dv;
            [0, 1, 2].map(|k| self.cuts[k][at[k]])
        };
        let mut points = vec![corner(0, 0), corner(1, 0), corner(1, 1), corner(0, 1)];
        if !upper {
            points.reverse();
        }
        points
    }
}

/// The face of the polygon of this number: by plane, by itself, by direction, by chance, or one for upright ones and one for the others.
fn face(random: &mut Random, naming: u64, polygon: usize, (axis, upper, level): (usize, bool, usize)) -> (u32, u32) {
    let direction = 2 * axis as u32 + u32::from(upper);
    match naming {
        0..=2 => (direction, level as u32),
        3 => (0, polygon as u32),
        4 => (direction, 0),
        5 => (random.below(2) as u32, random.below(4) as u32),
        6 => (0, random.below(3) as u32),
        _ => (u32::from(axis == 2), 0),
    }
}

pub fn draw(random: &mut Random) -> Mesh {
    let grid = Grid::draw(random);
    let naming = random.below(8);
    let mut mesh = Mesh::empty();
    for cell in grid.all().into_iter().filter(|cell| grid.full[grid.number(*cell)]) {
        for (axis, upper) in (0..6).map(|k| (k / 2, k % 2 == 1)) {
            if !grid.is_full_beside(cell, axis, upper) {
                let face = face(random, naming, mesh.polygons.len(), (axis, upper, cell[axis] + usize::from(upper)));
                mesh.push(face, grid.side(cell, axis, upper));
            }
        }
    }
    if random.below(2) == 0 {
        shuffle(random, &mut mesh.polygons);
    }
    if random.below(8) == 0 {
        mesh.polygons.iter_mut().step_by(1 + random.below(4) as usize).for_each(|p| set_word(&mut p.entry, 16, 3));
    }
    let turn = random.below(4) as usize;
    mesh.polygons.iter_mut().for_each(|p| p.points.rotate_left(turn));
    close(random, &grid, &mut mesh);
    let frame = Frame::draw(random);
    mesh.points_mut().for_each(|p| *p = frame.at(p[0], p[1], p[2]));
    mesh
}

/// A hollow about it all, a roof over some of it, or nothing.
fn close(random: &mut Random, grid: &Grid, mesh: &mut Mesh) {
    let [low, high] = [0, 1].map(|k| [0, 1, 2].map(|axis| if k == 0 { grid.cuts[axis][0] } else { *grid.cuts[axis].last().unwrap() }));
    match random.below(4) {
        0 => block(mesh, 77, low.map(|c| c - 1.0), [0, 1, 2].map(|k| high[k] - low[k] + 2.0), true),
        1 | 2 => {
            let z = high[2] + pick(random, &[0.5, 2.0, 0.0]);
            let [from, to] = [0; 2].map(|_| pick(random, &grid.cuts[0]));
            if from < to {
                mesh.push((78, 0), vec![[from, low[1], z], [from, high[1], z], [to, high[1], z], [to, low[1], z]]);
            }
        }
        _ => {}
    }
}

/// Pits of three walls each, 3 mm apart: three corners a pit, each of two faces that no other has. One wall of some is no plane, which leaves one
/// corner.
pub fn pits(count: usize, not_plane: usize) -> Mesh {
    let mut mesh = Mesh::empty();
    for k in 0..count {
        let (x, y) = (4.0 * (k % 40) as f64, 4.0 * (k / 40) as f64);
        let corners = [[x, y], [x + 2.0, y], [x, y + 2.0]];
        let (column, row) = (k % 340, k / 340);
        for i in 0..3 {
            let ([ax, ay], [bx, by]) = (corners[(i + 1) % 3], corners[i]);
            // no two pits have two faces in common
            let face = (340 * i + (column + i * row) % 340) as u32;
            mesh.push((face % 7, face), vec![[ax, ay, 0.0], [bx, by, 0.0], [bx, by, 5.0], [ax, ay, 5.0]]);
        }
        if k < not_plane {
            let wall = 3 * k;
            set_word(&mut mesh.polygons[wall].entry, 16, 3);
        }
    }
    mesh
}
