//! Plates cut into a grid of cells, each plain or with a bore, a pocket or a boss; sides match.
use crate::generate::draw::Draw;
use crate::generate::part::{Face, Kind, Part};
use crate::generate::ring::{flat, Rect, Ring};
use crate::generate::space::{Frame, P, WORLD};

#[derive(Clone)]
pub enum Cell {
    Plain,
    Through(Ring),
    /// Depth from the top.
    Blind(Ring, f64),
    /// Height above the top.
    Boss(Ring, f64),
}

/// How a cell's slab lies: heights, its two faces, and the pieces round an outline (0: convex).
#[derive(Clone, Copy)]
pub struct Slab {
    pub frame: Frame,
    pub z0: f64,
    pub z1: f64,
    pub bottom: Face,
    pub top: Face,
    pub pieces: (usize, usize),
}

impl Slab {
    pub fn cell(&self, part: &mut Part, rect: Rect, cell: &Cell, feature: u32) {
        let f = &self.frame;
        let floor = (feature, 100);
        match cell {
            Cell::Plain => {
                self.plain(part, rect, false);
                self.plain(part, rect, true);
            }
            Cell::Through(ring) => {
                ring.round_about(part, f, rect, self.z0, self.bottom, false, self.pieces.0);
                ring.round_about(part, f, rect, self.z1, self.top, true, self.pieces.1);
                ring.wall(part, f, self.z0, self.z1, feature, true);
            }
            Cell::Blind(ring, depth) => {
                self.plain(part, rect, false);
                ring.round_about(part, f, rect, self.z1, self.top, true, self.pieces.1);
                ring.wall(part, f, self.z1 - depth, self.z1, feature, true);
                ring.disc(part, f, self.z1 - depth, floor, true);
            }
            Cell::Boss(ring, height) => {
                self.plain(part, rect, false);
                ring.round_about(part, f, rect, self.z1, self.top, true, self.pieces.1);
                ring.wall(part, f, self.z1, self.z1 + height, feature, false);
                ring.disc(part, f, self.z1 + height, floor, true);
            }
        }
    }

    fn plain(&self, part: &mut Part, r: Rect, up: bool) {
        let points = vec![(r[0], r[1]), (r[2], r[1]), (r[2], r[3]), (r[0], r[3])];
        let (z, face) = if up { (self.z1, self.top) } else { (self.z0, self.bottom) };
        flat(part, &self.frame, points, z, face, up);
    }
}

/// The whole plate: the cells by x, then y, and the four sides.
pub fn plate(part: &mut Part, slab: &Slab, xs: &[f64], ys: &[f64], cells: &[Cell]) {
    for i in 0..xs.len() - 1 {
        for j in 0..ys.len() - 1 {
            let number = i * (ys.len() - 1) + j;
            let rect = [xs[i], ys[j], xs[i + 1], ys[j + 1]];
            slab.cell(part, rect, &cells[number], slab.top.0 + 1 + number as u32);
        }
    }
    let feature = slab.top.0;
    let (x0, x1, y0, y1) = (xs[0], xs[xs.len() - 1], ys[0], ys[ys.len() - 1]);
    for x in xs.windows(2) {
        upright(part, slab, [x[0], y0, x[1], y0], (feature, 2));
        upright(part, slab, [x[1], y1, x[0], y1], (feature, 4));
    }
    for y in ys.windows(2) {
        upright(part, slab, [x1, y[0], x1, y[1]], (feature, 3));
        upright(part, slab, [x0, y[1], x0, y[0]], (feature, 5));
    }
}

fn upright(part: &mut Part, slab: &Slab, r: Rect, face: Face) {
    let (z0, z1) = (slab.z0, slab.z1);
    let quad = [[r[0], r[1], z0], [r[2], r[3], z0], [r[2], r[3], z1], [r[0], r[1], z1]];
    part.put(&slab.frame, face, Kind::Plane, &quad);
}

pub fn slab(feature: u32, z0: f64, z1: f64, pieces: (usize, usize)) -> Slab {
    Slab { frame: WORLD, z0, z1, bottom: (feature, 0), top: (feature, 1), pieces }
}

/// Cuts from 0 on, of the given widths.
pub fn cuts(widths: &[f64]) -> Vec<f64> {
    let mut out = vec![0.0];
    for w in widths {
        out.push(out[out.len() - 1] + w);
    }
    out
}

/// Coarse below, so that a bore of 32 sides still fits the program's 16,384 bytes.
pub fn draw_pieces(d: &mut Draw) -> (usize, usize) {
    d.pick(&[(2, 64), (2, 64), (64, 64), (4, 4), (2, 2)])
}

/// Facets of a bore: a hole needs 32 (a gap below 0.2 rad), fewer make it an inside corner.
pub fn facets(d: &mut Draw) -> usize {
    match d.below(8) {
        0..=4 => d.pick(&[32, 32, 32, 33, 36, 40]),
        5 => d.pick(&[48, 64]),
        6 => d.pick(&[6, 8, 12, 16, 24]),
        _ => d.from(6, 64),
    }
}

/// A circle inside the rectangle, small or as large as fits, in its middle or near a side.
fn circle(d: &mut Draw, r: Rect, wanted: f64) -> Ring {
    let room = 0.499 * (r[2] - r[0]).min(r[3] - r[1]);
    let radius = wanted.min(room * d.pick(&[1.0, 0.9, 0.5])).max(0.001);
    let share = d.pick(&[0.0, 0.0, 0.9, -0.9, 0.4]);
    let slack = (r[2] - r[0] - 2.0 * radius) * 0.5;
    let centre = (0.5 * (r[0] + r[2]) + share * slack, 0.5 * (r[1] + r[3]));
    let sides = facets(d);
    Ring::circle(centre, radius, sides).with_axis(d)
}

/// A radius that makes the depth so many diameters, near the drill's limits.
fn drill(d: &mut Draw, depth: f64) -> f64 {
    match d.below(3) {
        0 => depth / (2.0 * d.pick(&[0.5, 2.0, 4.0, 4.5, 6.0, 10.0, 10.5, 20.0])),
        1 => d.pick(&[0.2, 0.4, 0.5, 0.6, 1.0, 1.5]),
        _ => d.size(0.1, 10.0),
    }
}

pub fn plates(d: &mut Draw, part: &mut Part) {
    let thick = d.size(0.1, 40.0);
    let (nx, ny) = d.pick(&[(1, 1), (1, 1), (2, 1), (3, 1), (2, 2), (3, 3)]);
    let alike = d.one_in(3);
    let width = d.size(2.0, 60.0);
    let mut draw_width = || if alike { width } else { d.size(2.0, 60.0) };
    let xs = cuts(&(0..nx).map(|_| draw_width()).collect::<Vec<_>>());
    let ys = cuts(&(0..ny).map(|_| draw_width()).collect::<Vec<_>>());
    let mut rich = d.pick(&[0, 1, 1, 1, 1, 2, 4]);
    let mut first: Option<(Rect, Cell)> = None;
    let mut cells = Vec::new();
    for i in 0..nx {
        for j in 0..ny {
            let rect = [xs[i], ys[j], xs[i + 1], ys[j + 1]];
            // The cells left must not be fewer than the rich ones wanted, or they would be lost.
            let left = nx * ny - cells.len();
            if rich > 0 && d.below(left) < rich {
                rich -= 1;
                // Of alike cells all have the same bore, so that their faults are equal.
                cells.push(match &first {
                    Some((r, cell)) if alike => shifted(cell, rect[0] - r[0], rect[1] - r[1]),
                    _ => draw_cell(d, rect, thick),
                });
                first.get_or_insert((rect, cells[cells.len() - 1].clone()));
            } else {
                cells.push(Cell::Plain);
            }
        }
    }
    let pieces = draw_pieces(d);
    plate(part, &slab(1, 0.0, thick, pieces), &xs, &ys, &cells);
}

/// A row of equal bores, as for a strip of threads: their faults merge.
pub fn rows(d: &mut Draw, part: &mut Part) {
    let count = d.from(4, 10);
    let thick = d.size(0.5, 40.0);
    let width = d.size(2.0, 20.0);
    let xs = cuts(&vec![width; count]);
    let ys = [0.0, d.size(2.0, 20.0)];
    let radius = drill(d, thick);
    let ring = circle(d, [0.0, 0.0, width, ys[1]], radius);
    let first = if d.one_in(3) { Cell::Blind(ring, 0.9 * thick) } else { Cell::Through(ring) };
    let cells: Vec<Cell> = xs[..count].iter().map(|x| shifted(&first, *x, 0.0)).collect();
    let pieces = draw_pieces(d);
    plate(part, &slab(1, 0.0, thick, pieces), &xs, &ys, &cells);
}

fn draw_cell(d: &mut Draw, rect: Rect, thick: f64) -> Cell {
    let radius = drill(d, thick);
    let ring = circle(d, rect, radius);
    match d.below(5) {
        0 => Cell::Blind(ring, thick * d.pick(&[0.25, 0.5, 0.9, 0.99])),
        1 => Cell::Boss(ring, d.size(0.05, 60.0)),
        _ => Cell::Through(ring),
    }
}

/// Sharp and filleted pockets, deep and shallow.
pub fn pockets(d: &mut Draw, part: &mut Part) {
    let thick = d.size(1.0, 60.0);
    let count = d.pick(&[1, 1, 2, 3]);
    let width = d.size(3.0, 40.0);
    let xs = cuts(&vec![width; count]);
    let ys = [0.0, d.size(3.0, 80.0)];
    let alike = d.one_in(2);
    let first = pocket(d, [0.0, 0.0, width, ys[1]], thick);
    let cells: Vec<Cell> = (0..count)
        .map(|i| {
            let rect = [xs[i], ys[0], xs[i + 1], ys[1]];
            if alike { shifted(&first, xs[i], 0.0) } else { pocket(d, rect, thick) }
        })
        .collect();
    let pieces = d.pick(&[(64, 64), (2, 64), (4, 4)]);
    plate(part, &slab(1, 0.0, thick, pieces), &xs, &ys, &cells);
}

fn pocket(d: &mut Draw, r: Rect, thick: f64) -> Cell {
    let edge = (r[2] - r[0]).min(r[3] - r[1]) * d.pick(&[0.02, 0.1, 0.2, 0.3]);
    let inner = [r[0] + edge, r[1] + edge, r[2] - edge, r[3] - edge];
    let room = 0.5 * (inner[2] - inner[0]).min(inner[3] - inner[1]);
    let depth = thick * d.pick(&[0.1, 0.5, 0.9, 0.98]);
    let ring = if d.one_in(2) {
        Ring::rectangle(inner)
    } else {
        let radius = match d.below(3) {
            0 => depth / (2.0 * d.pick(&[3.0, 4.0, 4.5, 9.0, 10.5])),
            1 => d.pick(&[0.1, 0.3, 0.5, 0.6, 1.0]),
            _ => d.size(0.1, 8.0),
        };
        let sides = d.from(1, 6);
        Ring::rounded(inner, radius.min(room * 0.95), sides).with_axis(d)
    };
    if d.one_in(3) { Cell::Through(ring) } else { Cell::Blind(ring, depth) }
}

fn shifted(cell: &Cell, x: f64, y: f64) -> Cell {
    let mut cell = cell.clone();
    let by = |p: &mut P| *p = (p.0 + x, p.1 + y);
    if let Cell::Through(ring) | Cell::Blind(ring, _) | Cell::Boss(ring, _) = &mut cell {
        by(&mut ring.centre);
        ring.points.iter_mut().for_each(by);
        ring.sides.iter_mut().filter_map(|s| s.circle.as_mut()).for_each(|c| by(&mut c.0));
    }
    cell
}
