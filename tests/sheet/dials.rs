//! Parts of sheet metal that hang on one number.
use against::arrange;
use against::dial::{self, Dial};
use against::sheet::brackets::{Bracket, Hole, THICK};
use against::sheet::jobs;
use common::generate::sheet::Run;
use common::ids::Id;
use common::mesh::Mesh;
use common::random::Random;
use common::shapes::{block, pick};
use oracle::faults::{Part, Process};

fn of(bracket: Bracket, ends: [f64; 2], set: impl Fn(&mut Bracket, f64) + 'static) -> Dial {
    Dial::new(ends, move |x| {
        let mut copy = bracket.clone();
        set(&mut copy, x);
        copy.mesh()
    })
}

/// In another order, place and naming, the same for all numbers, and with this job.
fn arranged(dial: Dial, random: &mut Random) -> Dial {
    let (seed, job) = (random.next(), jobs::draw(random));
    dial.then(move |mesh| {
        arrange::arranged(&mut Random(seed), mesh);
        mesh.job.clone_from(&job);
    })
}

#[derive(PartialEq)]
pub struct Found {
    faults: Vec<(&'static str, Vec<Id>)>,
    near_bends: usize,
    thick: bool,
    bends: usize,
}

impl dial::Found for Found {
    fn of(mesh: &Mesh) -> Option<Found> {
        let report = Part::read(&mesh.bytes()).ok()?.report(Process::SheetMetal);
        let faults = report.findings.iter().map(|f| (f.rule, dial::ids(f)));
        let near_bends = report.findings.iter().filter(|f| f.message.contains(" from a bend;")).count();
        Some(Found { faults: faults.collect(), near_bends, thick: report.thickness.is_some(), bends: report.bends })
    }

    /// The thickness first, then the bends, then the first of the rules.
    fn change(&self, other: &Found) -> String {
        let of = |found: &Found, rule: &str| found.faults.iter().filter(|f| f.0 == rule).count();
        let rules = ["Not one thickness", "Tight bend", "Short flange", "Small hole", "Hole too close"];
        let changed = |rule: &str| of(self, rule) != of(other, rule);
        let what = match rules.into_iter().find(|rule| changed(rule)) {
            _ if self.thick != other.thick && !changed(rules[0]) => "any reading kept",
            _ if self.thick == other.thick && self.bends != other.bends => "bends",
            Some(rule) => rule,
            None => "faces",
        };
        format!("change of {what}")
    }
}

pub fn draw(random: &mut Random) -> Dial {
    let dial = match random.below(20) {
        0 | 1 => tight(random),
        2..=4 => outside(random),
        5 => flanges_that_lean(random),
        6 | 7 => flange(random),
        8 => slight(random),
        9 => small(random),
        10 | 11 => said_gap(random),
        12 | 13 => moved(random),
        14 => other_radius(random),
        15 | 16 => between(random),
        _ => plates(random),
    };
    arranged(dial, random)
}

/// The inside radius of every bend, against the ratio.
fn tight(random: &mut Random) -> Dial {
    let count = 1 + random.below(3) as usize;
    let bracket = Bracket::draw(random, count);
    let thick = bracket.thick;
    of(bracket, [0.05 * thick, 4.0 * thick], |b, x| b.said.inside = Some(x))
}

/// How much larger the outside radius is, how far its axis is off, or how far it leans.
fn outside(random: &mut Random) -> Dial {
    let count = 1 + random.below(2) as usize;
    let mut bracket = Bracket::draw(random, count);
    bracket.centred = true;
    let thick = bracket.thick;
    if random.below(3) == 0 {
        // it hangs on whose axis the distance is taken from
        bracket.said.along = pick(random, &[20.0, 60.0, -50.0]) * thick;
        bracket.said.lean = pick(random, &[1e-4, 5e-4, 9e-4]);
    }
    match random.below(5) {
        0 => of(bracket, [thick, 1.2 * thick], |b, x| b.said.more = Some(x)),
        1 => of(bracket, [0.8 * thick, thick], |b, x| b.said.more = Some(x)),
        2 | 3 => of(bracket, [0.01 * thick, 0.2 * thick], |b, x| b.said.shift = x),
        _ => of(bracket, [1e-4, 4e-3], |b, x| b.said.lean = x),
    }
}

/// How far the axes of a bend lean out of its flanges.
fn flanges_that_lean(random: &mut Random) -> Dial {
    let mut bracket = Bracket::draw(random, 1);
    let thick = bracket.thick;
    bracket.runs[2 * random.below(2) as usize] = Run::Straight(2.0 * thick);
    of(bracket, [0.02, 0.3], |b, x| b.said.both = x)
}

/// How long the first flange is.
fn flange(random: &mut Random) -> Dial {
    let count = 1 + random.below(4) as usize;
    let mut bracket = Bracket::draw(random, count);
    let thick = bracket.thick;
    match random.below(4) {
        0 => {
            // a line in several segments: where its axis leans, the length hangs on which is the first
            bracket.said.both = pick(random, &[0.01, 0.05, 0.099]);
            bracket.widths = vec![thick, 2.0 * thick, 4.0 * thick];
        }
        1 => {
            // it hangs on which of the two axes the length is square to
            bracket.runs.truncate(3);
            bracket.said.lean = pick(random, &[5e-4, 9e-4]);
            bracket.said.outside_only = true;
        }
        _ => {}
    }
    of(bracket, [2.0 * thick, 7.0 * thick], |b, x| b.runs[0] = Run::Straight(x))
}

/// How far two short flanges are turned: nearly parallel ones count once.
fn slight(random: &mut Random) -> Dial {
    let mut bracket = Bracket::draw(random, 1);
    let (thick, left) = (bracket.thick, random.below(2) == 0);
    bracket.runs = vec![Run::Straight(2.0 * thick), Run::Straight(0.0), Run::Straight(3.0 * thick)];
    of(bracket, [0.005, 0.06], move |b, x| b.runs[1] = Run::Bend(b.thick, x, 3, left))
}

/// A bracket of few bends with long flanges and a hole in its middle; and the hole's run.
fn with_hole(random: &mut Random) -> Bracket {
    let bends = random.below(3) as usize;
    let mut bracket = Bracket::draw(random, bends);
    let thick = bracket.thick;
    let run = 2 * random.below(bends as u64 + 1) as usize;
    bracket.runs[run] = Run::Straight(pick(random, &[12.0, 16.0, 20.0]) * thick);
    bracket.widths[0] = 16.0 * thick;
    // the plain part beside it gives the thickness
    bracket.widths.push(16.0 * thick);
    let radius = thick * pick(random, &[0.5, 0.6, 1.0]);
    bracket.holes.push(Hole { run, cut: 0, x: 0.5 * bracket.length(run), y: 8.0 * thick, radius });
    bracket
}

/// How wide a hole says that it is, against the thickness.
fn small(random: &mut Random) -> Dial {
    let bracket = with_hole(random);
    let thick = bracket.thick;
    of(bracket, [0.2 * thick, 0.9 * thick], |b, x| b.said.hole = Some(x))
}

/// The same, so wide that it comes near the edges, or past them.
fn said_gap(random: &mut Random) -> Dial {
    let bracket = with_hole(random);
    let thick = bracket.thick;
    of(bracket, [0.7 * thick, 12.0 * thick], |b, x| b.said.hole = Some(x))
}

/// Where a hole stands: nearer to this edge, bend or other hole, or to that.
fn moved(random: &mut Random) -> Dial {
    let mut bracket = with_hole(random);
    let (thick, first) = (bracket.thick, bracket.holes[0]);
    if random.below(2) == 0 {
        bracket.holes.push(Hole { cut: 1, y: pick(random, &[2.0, 4.0, 8.0]) * thick, ..first });
    }
    let long = bracket.length(first.run);
    match random.below(4) {
        0 => of(bracket, [first.radius * 1.05, 0.5 * long], |b, x| b.holes[0].x = x),
        1 => of(bracket, [0.5 * long, long - first.radius * 1.05], |b, x| b.holes[0].x = x),
        2 => of(bracket, [first.radius * 1.05, 8.0 * thick], |b, x| b.holes[0].y = x),
        _ => of(bracket, [8.0 * thick, 16.0 * thick - first.radius * 1.05], |b, x| b.holes[0].y = x),
    }
}

/// Where a hole stands in a plate so small that it is always too close to something.
fn between(random: &mut Random) -> Dial {
    let bends = random.below(3) as usize;
    let mut bracket = Bracket::draw(random, bends);
    let (thick, run) = (bracket.thick, 2 * random.below(bends as u64 + 1) as usize);
    bracket.runs[run] = Run::Straight(5.0 * thick);
    bracket.widths = vec![4.0 * thick, pick(random, &[4.0, 20.0]) * thick];
    let hole = Hole { run, cut: 0, x: 2.5 * thick, y: 2.0 * thick, radius: 0.5 * thick };
    bracket.holes = vec![hole, Hole { cut: 1, ..hole }];
    bracket.holes.truncate(1 + random.below(2) as usize);
    if random.below(2) == 0 {
        return of(bracket, [0.6 * thick, 4.4 * thick], |b, x| b.holes[0].x = x);
    }
    of(bracket, [0.6 * thick, 3.4 * thick], |b, y| b.holes[0].y = y)
}

/// The radius of one bend, by the largest of which a hole stays away from every bend.
fn other_radius(random: &mut Random) -> Dial {
    let mut bracket = Bracket::draw(random, 2);
    let thick = bracket.thick;
    bracket.runs[0] = Run::Straight(16.0 * thick);
    bracket.widths = vec![16.0 * thick; 2];
    let x = (16.0 - pick(random, &[3.0, 4.0, 5.0, 6.0])) * thick;
    bracket.holes.push(Hole { run: 0, cut: 0, x, y: 8.0 * thick, radius: 0.5 * thick });
    let bend = 1 + 2 * random.below(2) as usize;
    of(bracket, [0.1 * thick, 4.0 * thick], move |b, x| {
        if let Run::Bend(radius, ..) = &mut b.runs[bend] {
            *radius = x;
        }
    })
}

/// Two plates beside each other: how thick the second is, how wide, or how wide both are, so that their middles come away from their edges.
fn plates(random: &mut Random) -> Dial {
    let thick = pick(random, &THICK);
    let share = pick(random, &[3.0, 3.0, 10.0, 4.0, 2.0]);
    let long = pick(random, &[20.0, 20.0, 5.0]) * thick;
    let other = pick(random, &[1.5, 1.04, 0.9, 1.03, 1.001]) * thick;
    let two = move |wide: [f64; 2], long: f64, other: f64| {
        let mut mesh = Mesh::empty();
        block(&mut mesh, 1, [0.0; 3], [wide[0], long, thick], false);
        block(&mut mesh, 2, [-wide[1] - 5.0 * thick, 0.0, 0.0], [wide[1], long, other], false);
        mesh
    };
    let wide = [(20.0 - share) * thick, share * thick];
    match random.below(7) {
        0 | 1 => Dial::new([1.001 * thick, 1.2 * thick], move |x| two(wide, long, x)),
        2 | 3 => Dial::new([0.8 * thick, 0.999 * thick], move |x| two(wide, long, x)),
        4 => Dial::new([0.5 * thick, 19.0 * thick], move |x| two([wide[0], x], long, other)),
        5 => Dial::new([0.1 * thick, 4.0 * thick], move |x| two([wide[0], wide[0]], x, other)),
        _ => Dial::new([0.1 * thick, 4.0 * thick], move |x| two([wide[0], x], long, other)),
    }
}
