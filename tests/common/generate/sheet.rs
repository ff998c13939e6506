//! Sheet metal: a strip that runs straight and through bends, of one thickness, drawn across z.
use crate::generate::draw::Draw;
use crate::generate::part::{Kind, Part};
use crate::generate::plate::{Cell, Slab};
use crate::generate::ring::Ring;
use crate::generate::space::{turn, Frame, P, Z};

/// One piece of the strip's path.
#[derive(Clone, Copy)]
pub enum Run {
    /// Length.
    Straight(f64),
    /// Inner radius, share of a full turn, facets; to the left (true) or the right.
    Bend(f64, f64, usize, bool),
}

/// A cut across the strip: its points on the right and on the left.
#[derive(Clone, Copy)]
struct Station {
    right: P,
    left: P,
}

/// From a station to the next; a bend's parts have the axis and the two radii (right, left).
struct Segment {
    run: u32,
    heading: P,
    length: f64,
    bend: Option<(P, f64, f64)>,
}

/// The strip: right is the side on the right hand of the path, the thickness lies to the left.
pub struct Strip {
    stations: Vec<Station>,
    segments: Vec<Segment>,
    thick: f64,
}

impl Strip {
    pub fn new(runs: &[Run], thick: f64, start_thick: f64) -> Strip {
        let mut strip = Strip { stations: vec![], segments: vec![], thick };
        let (mut at, mut share) = ((0.0, 0.0), 0.0);
        strip.station(at, share, start_thick);
        for (number, run) in runs.iter().enumerate() {
            match *run {
                Run::Straight(length) => {
                    let (c, s) = turn(share);
                    at = (at.0 + c * length, at.1 + s * length);
                    strip.segments.push(Segment { run: number as u32, heading: (c, s), length, bend: None });
                    strip.station(at, share, thick);
                }
                Run::Bend(radius, angle, facets, left) => {
                    let (c, s) = turn(share);
                    // The axis lies on the inner side, a radius off the sheet.
                    let off = if left { thick + radius } else { -radius };
                    let axis = (at.0 - s * off, at.1 + c * off);
                    let begin = share;
                    for k in 1..=facets {
                        let part = angle * k as f64 / facets as f64;
                        share = if left { begin + part } else { begin - part };
                        let (c, s) = turn(share);
                        at = (axis.0 + s * off, axis.1 - c * off);
                        let radii = if left { (radius + thick, radius) } else { (radius, radius + thick) };
                        let bend = Some((axis, radii.0, radii.1));
                        strip.segments.push(Segment { run: number as u32, heading: (c, s), length: 0.0, bend });
                        strip.station(at, share, thick);
                    }
                }
            }
        }
        strip
    }

    fn station(&mut self, at: P, share: f64, thick: f64) {
        let (c, s) = turn(share);
        self.stations.push(Station { right: at, left: (at.0 - s * thick, at.1 + c * thick) });
    }

    /// Polygons of the strip across the cuts zs; `cell` says what a flat piece holds, by segment
    /// and cut, given its length and width.
    pub fn build(&self, part: &mut Part, zs: &[f64], pieces: usize, cell: &mut dyn FnMut(usize, usize, f64, f64) -> Cell) {
        let (z0, z1) = (zs[0], zs[zs.len() - 1]);
        for (i, segment) in self.segments.iter().enumerate() {
            let (a, b) = (self.stations[i], self.stations[i + 1]);
            part.push((1, 0), Kind::Plane, quad(b.right, a.right, a.left, b.left, z0));
            part.push((1, 1), Kind::Plane, quad(a.right, b.right, b.left, a.left, z1));
            for j in 0..zs.len() - 1 {
                let number = (i * zs.len() + j) as u32;
                match cell(i, j, segment.length, zs[j + 1] - zs[j]) {
                    Cell::Plain => self.plain(part, i, zs[j], zs[j + 1]),
                    holed => self.holed(part, i, zs[j], zs[j + 1], &holed, pieces, 100 + number),
                }
            }
        }
        let (first, last) = (self.stations[0], self.stations[self.stations.len() - 1]);
        for z in zs.windows(2) {
            part.push((1, 2), Kind::Plane, across(first.left, first.right, z[0], z[1]));
            part.push((1, 3), Kind::Plane, across(last.right, last.left, z[0], z[1]));
        }
    }

    fn plain(&self, part: &mut Part, i: usize, z0: f64, z1: f64) {
        let segment = &self.segments[i];
        let (a, b) = (self.stations[i], self.stations[i + 1]);
        let (right, left) = match segment.bend {
            None => (Kind::Plane, Kind::Plane),
            Some(((x, y), r, l)) => {
                let kind = |radius: f64| Kind::Cylinder([x, y, z0], Z, radius);
                (kind(r), kind(l))
            }
        };
        part.push((2 + segment.run, 0), right, across(a.right, b.right, z0, z1));
        part.push((2 + segment.run, 1), left, across(b.left, a.left, z0, z1));
    }

    /// A flat piece with a bore: along the path is x, along z is y, and the right side is the top.
    fn holed(&self, part: &mut Part, i: usize, z0: f64, z1: f64, cell: &Cell, pieces: usize, feature: u32) {
        let segment = &self.segments[i];
        let (p, (c, s)) = (self.stations[i].right, segment.heading);
        let frame = Frame { origin: [p.0, p.1, z0], x: [c, s, 0.0], y: Z, z: [s, -c, 0.0] };
        let (bottom, top) = ((2 + segment.run, 1), (2 + segment.run, 0));
        let slab = Slab { frame, z0: -self.thick, z1: 0.0, bottom, top, pieces: (pieces, pieces) };
        slab.cell(part, [0.0, 0.0, segment.length, z1 - z0], cell, feature);
    }
}

fn quad(a: P, b: P, c: P, d: P, z: f64) -> Vec<[f64; 3]> {
    [a, b, c, d].iter().map(|p| [p.0, p.1, z]).collect()
}

/// From a to b, and from z0 up to z1; seen from the right of a to b.
fn across(a: P, b: P, z0: f64, z1: f64) -> Vec<[f64; 3]> {
    vec![[a.0, a.1, z0], [b.0, b.1, z0], [b.0, b.1, z1], [a.0, a.1, z1]]
}

/// L, U and Z brackets with holes near bends and edges.
pub fn brackets(d: &mut Draw, part: &mut Part) {
    let thick = d.pick(&[0.5, 1.0, 1.0, 1.5, 2.0, 3.0]);
    let radius = thick * d.pick(&[0.1, 0.4, 0.5, 0.9, 1.0, 1.1, 1.5, 2.0, 3.0]);
    let bends = d.pick(&[0, 1, 1, 1, 2, 2, 3]);
    let angle = d.pick(&[0.25, 0.25, 0.25, 0.125, 0.2, 0.1]);
    let mut runs = vec![Run::Straight(flange(d, thick))];
    for _ in 0..bends {
        let r = if d.one_in(6) { radius * 2.0 } else { radius };
        runs.push(Run::Bend(r, angle, d.from(2, 5), !d.one_in(4)));
        // A flange in two pieces gives two faces, of which only one is next to the bend.
        runs.push(Run::Straight(flange(d, thick)));
        if d.one_in(5) {
            runs.push(Run::Straight(flange(d, thick)));
        }
    }
    let start = if d.one_in(5) { thick * d.pick(&[1.02, 1.06, 1.5, 3.0]) } else { thick };
    let strip = Strip::new(&runs, thick, start);
    let wide = d.size(4.0, 40.0);
    let widths: Vec<f64> = (0..d.from(1, 3)).map(|_| if d.one_in(2) { wide } else { d.size(4.0, 40.0) }).collect();
    let zs = crate::generate::plate::cuts(&widths);
    let mut holes = d.pick(&[0, 1, 1, 1, 2, 3]);
    let pieces = d.pick(&[2, 2, 2, 64]);
    let alike = d.one_in(2);
    let mut before: Option<(f64, f64, Cell)> = None;
    strip.build(part, &zs, pieces, &mut |i, _, length, width| {
        // The wedge at a start of another thickness is not flat on both sides: no hole there.
        if length == 0.0 || holes == 0 || d.one_in(2) || (i == 0 && start != thick) {
            return Cell::Plain;
        }
        holes -= 1;
        match &before {
            Some((l, w, same)) if alike && *l == length && *w == width => same.clone(),
            _ => {
                let new = hole(d, thick, length, width);
                before = Some((length, width, new.clone()));
                new
            }
        }
    });
}

fn flange(d: &mut Draw, thick: f64) -> f64 {
    match d.below(4) {
        0 => thick * d.pick(&[1.0, 2.0, 3.0, 3.9, 4.0, 4.1]),
        1 => thick * d.pick(&[6.0, 8.0, 12.0]),
        _ => d.size(8.0, 60.0),
    }
}

fn hole(d: &mut Draw, thick: f64, length: f64, width: f64) -> Cell {
    let room = 0.49 * length.min(width);
    let radius = (0.5 * thick * d.pick(&[0.5, 0.9, 1.0, 1.1, 1.2, 1.3, 2.0, 4.0])).min(room);
    // Near the start, the end, or in the middle of the piece.
    let gap = thick * d.pick(&[0.1, 0.5, 1.0, 1.5, 2.0, 2.5, 3.0, 4.0]);
    let near = (radius + gap).min(length - radius * 1.01).max(radius * 1.01);
    let x = d.pick(&[near, length - near, 0.5 * length]);
    let sides = d.pick(&[32, 32, 32, 32, 36, 16]);
    Cell::Through(Ring::circle((x, 0.5 * width), radius, sides).with_axis(d))
}
