//! Brackets: a strip of one thickness through bends, with holes, and what its cylinders say of themselves, which need not fit how it is drawn.
use common::generate::draw::Draw;
use common::generate::file;
use common::generate::job::{Job, SHEET};
use common::generate::part::{Kind, Part};
use common::generate::plate::{cuts, Cell};
use common::generate::ring::Ring;
use common::generate::sheet::{Run, Strip};
use common::generate::space::{Frame, WORLD};
use common::mesh::Mesh;
use common::random::Random;
use common::shapes::pick;
use common::vector::times;

/// A bore through flat piece `run`, between two cuts; along the path x, along z y.
#[derive(Clone, Copy)]
pub struct Hole {
    pub run: usize,
    pub cut: usize,
    pub x: f64,
    pub y: f64,
    pub radius: f64,
}

#[derive(Clone)]
pub struct Bracket {
    pub thick: f64,
    pub runs: Vec<Run>,
    pub widths: Vec<f64>,
    pub holes: Vec<Hole>,
    /// Sides of a bore, and pieces of the flat about it.
    pub sides: usize,
    pub pieces: usize,
    /// The first bend's axis stands at zero, so that what is said of it is not rounded.
    pub centred: bool,
    pub said: Said,
}

/// What cylinders say where it is not what they are.
#[derive(Clone, Default)]
pub struct Said {
    /// The inside radius of bends; the outside one is larger by `more`.
    pub inside: Option<f64>,
    pub more: Option<f64>,
    /// How far the outside axis is off, how far it leans, and how far along it its origin lies.
    pub shift: f64,
    pub lean: f64,
    pub along: f64,
    /// How far both axes lean out of the flanges.
    pub both: f64,
    /// The flat faces on the inside of a single bend are of no kind, so that its flanges are found from the outside.
    pub outside_only: bool,
    /// The length and sense of the axes, inside and outside.
    pub axes: [f64; 2],
    /// The radius of holes.
    pub hole: Option<f64>,
}

/// Most often as they are.
const AXES: [f64; 8] = [1.0, 1.0, 1.0, 1.0, -1.0, 0.5, 1.9, -0.75];

/// Of 100 mm, and of that halved, shares as 0.03 and 0.05 are exact.
pub const THICK: [f64; 14] = [1.0, 1.0, 1.0, 0.5, 2.0, 1.375, 3.0, 0.8, 0.05, 0.01, 100.0, 12.5, 3.125, 25.0];

impl Bracket {
    /// Of so many bends: an L, a U or a Z, a hat, stairs, by how they turn.
    pub fn draw(random: &mut Random, bends: usize) -> Bracket {
        let thick = pick(random, &THICK);
        let radius = thick * pick(random, &[0.1, 0.5, 0.9, 1.0, 1.0, 1.5, 2.0, 3.0]);
        let angle = pick(random, &[0.25, 0.25, 0.25, 0.25, 0.125, 0.2, 0.1]);
        let turns = random.below(4);
        let mut runs = vec![Run::Straight(flange(random, thick))];
        for k in 0..bends {
            let left = match turns {
                0 => true,
                1 => k % 2 == 0,
                2 => k % 4 == 0 || k % 4 == 3,
                _ => random.below(2) == 0,
            };
            let radius = if random.below(5) == 0 { radius * pick(random, &[2.0, 0.5, 1.25]) } else { radius };
            runs.push(Run::Bend(radius, angle, 2 + random.below(3) as usize, left));
            runs.push(Run::Straight(flange(random, thick)));
        }
        let wide = thick * pick(random, &[5.0, 10.0, 16.0, 30.0]);
        let widths = vec![wide; pick(random, &[1, 1, 1, 2, 3])];
        let (sides, pieces) = (pick(random, &[32, 32, 33, 40]), pick(random, &[2, 4, 64]));
        let said = Said { axes: [0; 2].map(|_| pick(random, &AXES)), ..Said::default() };
        Bracket { thick, runs, widths, holes: vec![], sides, pieces, centred: false, said }
    }

    /// The length of flat piece `run`.
    pub fn length(&self, run: usize) -> f64 {
        match self.runs[run] {
            Run::Straight(length) => length,
            Run::Bend(..) => 0.0,
        }
    }

    /// A hole somewhere in flat piece `run`, of a size as a drawing has it.
    pub fn put_hole(&mut self, random: &mut Random, run: usize) {
        let cut = random.below(self.widths.len() as u64) as usize;
        let (long, wide) = (self.length(run), self.widths[cut]);
        let room = 0.49 * long.min(wide);
        let radius = (0.5 * self.thick * pick(random, &[0.5, 0.9, 1.0, 1.1, 1.2, 1.3, 2.0, 4.0])).min(room);
        let gap = self.thick * pick(random, &[0.1, 0.5, 1.0, 1.5, 2.0, 2.5, 3.0, 3.5, 4.0, 5.0]);
        let mut place = |long: f64| {
            let near = (radius + gap).min(long - 1.01 * radius).max(1.01 * radius);
            pick(random, &[near, long - near, 0.5 * long])
        };
        let (x, y) = (place(long), place(wide));
        self.holes.push(Hole { run, cut, x, y, radius });
    }

    pub fn mesh(&self) -> Mesh {
        let mut part = Part::default();
        let zs = cuts(&self.widths);
        // the generator counts pieces by facets of bends too
        let pieces: Vec<usize> = self.runs.iter().enumerate().flat_map(|(k, run)| vec![k; facets(run)]).collect();
        Strip::new(&self.runs, self.thick, self.thick).build(&mut part, &zs, self.pieces, &mut |i, j, _, _| {
            let hole = self.holes.iter().find(|h| h.run == pieces[i] && h.cut == j);
            hole.map_or(Cell::Plain, |h| Cell::Through(Ring::circle((h.x, h.y), h.radius, self.sides)))
        });
        if self.centred {
            centre(&mut part);
        }
        part.polygons.iter_mut().for_each(|p| p.kind = self.kind(p.face, p.kind));
        Mesh::read(&file::bytes(&part, &Job::defaults(SHEET)))
    }

    /// The kind with what is said of it.
    fn kind(&self, (feature, side): (u32, u32), kind: Kind) -> Kind {
        let said = &self.said;
        let Kind::Cylinder(origin, axis, radius) = kind else {
            let inside = matches!(self.runs[..], [_, Run::Bend(.., left), _] if (side == 1) == left);
            return if said.outside_only && inside && feature > 1 { Kind::Other } else { kind };
        };
        let Some(Run::Bend(inside, .., left)) = self.runs.get(feature as usize - 2) else {
            return Kind::Cylinder(origin, axis, said.hole.unwrap_or(radius));
        };
        let inner = said.inside.unwrap_or(*inside);
        let axis = if said.both == 0.0 { axis } else { [0.0, said.both, upright(said.both)] };
        if (side == 1) == *left {
            return Kind::Cylinder(origin, times(axis, said.axes[0]), inner);
        }
        let axis = if said.lean == 0.0 { axis } else { [said.lean, 0.0, upright(said.lean)] };
        let origin = [origin[0] + said.shift, origin[1], origin[2] + said.along];
        Kind::Cylinder(origin, times(axis, said.axes[1]), inner + said.more.unwrap_or(self.thick))
    }
}

/// The first axis to zero.
fn centre(part: &mut Part) {
    let axis = |kind: &Kind| if let Kind::Cylinder(origin, ..) = kind { Some(*origin) } else { None };
    if let Some(origin) = part.polygons.iter().find_map(|p| axis(&p.kind)) {
        part.move_to(&Frame { origin: origin.map(|c| -c), ..WORLD });
    }
}

fn upright(lean: f64) -> f64 {
    (1.0 - lean * lean).sqrt()
}

fn facets(run: &Run) -> usize {
    match run {
        Run::Straight(_) => 1,
        Run::Bend(_, _, facets, _) => *facets,
    }
}

fn flange(random: &mut Random, thick: f64) -> f64 {
    thick * pick(random, &[1.0, 2.0, 3.0, 3.9, 4.0, 4.1, 6.0, 8.0, 8.0, 12.0, 12.0, 16.0, 20.0, 20.0])
}

/// Any bracket, with up to four holes, each cylinder as it is drawn.
pub fn draw(random: &mut Random) -> Mesh {
    let bends = pick(random, &[0, 1, 1, 1, 2, 2, 3, 3, 4, 5, 6]);
    let mut bracket = Bracket::draw(random, bends);
    for _ in 0..pick(random, &[0, 1, 1, 2, 4]) {
        let run = 2 * random.below(bends as u64 + 1) as usize;
        bracket.put_hole(random, run);
    }
    bracket.mesh()
}

/// As the generator of the oracle's files draws them.
pub fn generated(random: &mut Random) -> Mesh {
    let mut part = Part::default();
    common::generate::sheet::brackets(&mut Draw::of(random.next(), 0), &mut part);
    Mesh::read(&file::bytes(&part, &Job::defaults(SHEET)))
}

/// Square plates with a hole in the middle of each or of some, so that several edges are at one distance.
pub fn squares(random: &mut Random) -> Mesh {
    let mut bracket = Bracket::draw(random, 0);
    let (thick, cells) = (bracket.thick, 1 + random.below(3) as usize);
    let wide = thick * pick(random, &[4.0, 5.0, 6.0, 8.0, 16.0]);
    bracket.runs = vec![Run::Straight(wide)];
    bracket.widths = vec![wide; cells];
    bracket.pieces = 64;
    let radius = thick * pick(random, &[0.5, 0.6, 1.0, 1.5]);
    for cut in (0..cells).filter(|k| *k == 0 || random.below(2) == 0) {
        bracket.holes.push(Hole { run: 0, cut, x: 0.5 * wide, y: 0.5 * wide, radius });
    }
    if random.below(2) == 0 {
        // two edges and two bends
        let bend = Run::Bend(pick(random, &[0.5, 1.0, 2.0]) * thick, 0.25, 2, random.below(2) == 0);
        let side = Run::Straight(pick(random, &[3.0, 8.0]) * thick);
        bracket.runs = vec![side, bend, Run::Straight(wide), bend, side];
        bracket.holes.iter_mut().for_each(|h| h.run = 2);
    }
    bracket.mesh()
}

/// Two holes near each other in one plate, each the other's nearest or an edge.
pub fn twins(random: &mut Random) -> Mesh {
    let bends = random.below(2) as usize;
    let mut bracket = Bracket::draw(random, bends);
    let thick = bracket.thick;
    bracket.runs[0] = Run::Straight(16.0 * thick);
    bracket.widths = vec![8.0 * thick; 2 + random.below(2) as usize];
    bracket.pieces = 64;
    let radius = thick * pick(random, &[0.4, 0.5, 0.6, 1.0]);
    let off = radius + thick * pick(random, &[0.05, 0.5, 1.0, 1.0, 1.25, 2.0]);
    let x = thick * pick(random, &[8.0, 8.0, 4.0, 12.5]);
    bracket.holes.push(Hole { run: 0, cut: 0, x, y: 8.0 * thick - off, radius });
    bracket.holes.push(Hole { run: 0, cut: 1, x: x + thick * pick(random, &[0.0, 0.0, 1.0]), y: off, radius });
    bracket.mesh()
}
