//! Values at the limits of the printing rules, and close beside.
use crate::generate::draw::Draw;
use crate::generate::job::{Job, FDM, SLA, SLS};
use crate::generate::part::{Kind, Part};
use crate::generate::plate::{plate, slab, Cell};
use crate::generate::ring::Ring;
use crate::generate::space::{allowed_direction, turn, Frame, WORLD, X, Y, Z};
use crate::vector::times;

pub fn printing(d: &mut Draw, part: &mut Part) -> Job {
    let process = d.pick(&[FDM, SLA, SLS]);
    let mut job = Job::draw(d, process);
    job.up = times(Z, d.pick(&[1.0, 1.0, 0.5, 2.0]));
    match d.below(10) {
        0 => floor(d, part, &mut job),
        1 | 2 => wall(d, part, &job),
        3 => hole(d, part, &mut job),
        4 | 5 => overhang(d, part, &mut job),
        6 => small_area(d, part, &mut job),
        7 => build_plate(d, part, &mut job),
        8 => bridge(d, part, &mut job),
        _ => hollow(d, part, &mut job),
    }
    job
}

/// Floors of one and two layers; up leaning to where a floor counts as a wall (cosine 0.99).
fn floor(d: &mut Draw, part: &mut Part, job: &mut Job) {
    let layers = d.pick(&[1.0, 1.0, 2.0, 2.0, 1.25, 1.75]);
    let thick = d.beside(layers * job.layer.min(100.0));
    part.block(1, [0.0; 3], [20.0, 20.0, thick]);
    if d.one_in(3) {
        let cosine = d.beside(0.99);
        job.up = allowed_direction([(1.0 - cosine * cosine).sqrt(), 0.0, cosine]);
    }
}

/// Walls of the nozzle's width, the least wall, and half of it.
fn wall(d: &mut Draw, part: &mut Part, job: &Job) {
    let least = job.min_wall.clamp(0.01, 1000.0);
    let nozzle = job.nozzle.unwrap_or(0.0).max(0.01);
    let exact = d.pick(&[least, least, 0.5 * least, nozzle, nozzle]);
    part.block(1, [0.0; 3], [d.beside(exact), 30.0, 30.0]);
}

fn bored(d: &mut Draw, part: &mut Part, radius: f64, frame: Frame) {
    let wide = 2.0 * radius + 4.0;
    let ring = Ring::circle((0.5 * wide, 0.5 * wide), radius, 32);
    let mut slab = slab(1, 0.0, d.size(1.0, 10.0), (2, 64));
    slab.frame = frame;
    plate(part, &slab, &[0.0, wide], &[0.0, wide], &[Cell::Through(ring)]);
}

fn hole(d: &mut Draw, part: &mut Part, job: &mut Job) {
    job.min_hole = d.pick(&[0.5, 1.0, 1.5, 2.0]);
    let radius = 0.5 * d.beside(job.min_hole);
    bored(d, part, radius, WORLD);
}

/// A face that leans by the limit: up is turned rather than the face, so that the face's normal
/// stays exact, and stepped about the sine, most often the sine plus 1e-9.
fn overhang(d: &mut Draw, part: &mut Part, job: &mut Job) {
    let tenths = if d.one_in(2) { d.pick(&[0, 1, 300, 450, 600, 899, 900]) } else { d.below(901) as u32 };
    job.overhang = Some(tenths);
    let (_, s) = turn(tenths as f64 / 3600.0);
    let dip = if d.one_in(3) { d.beside(s) } else { d.steps(s + 1e-9) };
    job.up = allowed_direction([(1.0 - dip * dip).max(0.0).sqrt(), 0.0, dip]);
    if d.one_in(2) {
        part.block(1, [0.0; 3], [10.0, 10.0, 10.0]);
    } else {
        down(part, (1, 0), [0.0, 0.0], [10.0, 10.0], 3.0);
        part.block(2, [0.0, 0.0, -60.0], [1.0, 1.0, -50.0]);
    }
}

/// A rectangle that faces down.
fn down(part: &mut Part, face: (u32, u32), a: [f64; 2], b: [f64; 2], z: f64) {
    let quad = vec![[a[0], a[1], z], [a[0], b[1], z], [b[0], b[1], z], [b[0], a[1], z]];
    part.push(face, Kind::Plane, quad);
}

/// Undersides of about 0.01 mm²: one, or one face of several polygons.
fn small_area(d: &mut Draw, part: &mut Part, job: &mut Job) {
    job.overhang = Some(d.pick(&[450, 600]));
    part.block(1, [0.0; 3], [2.0, 2.0, 1.0]);
    let pieces = d.from(1, 3);
    for face in 0..d.from(1, 3) as u32 {
        let side = d.beside(0.1);
        for k in 0..pieces {
            let (x0, x1) = (k as f64 / pieces as f64 * 0.1, (k + 1) as f64 / pieces as f64 * 0.1);
            down(part, (2, face), [x0, face as f64], [x1, face as f64 + side], 3.0);
        }
    }
}

/// Undersides about 1e-6 of the height above the lowest point, and so on the build plate or not.
fn build_plate(d: &mut Draw, part: &mut Part, job: &mut Job) {
    job.overhang = Some(d.pick(&[0, 450, 600, 899]));
    let high: f64 = d.pick(&[0.5, 1.0, 10.0, 300.0]);
    let above = d.beside(1e-6) * high.max(1.0);
    part.block(1, [0.0; 3], [2.0, 2.0, high]);
    part.block(2, [5.0, 0.0, above], [7.0, 2.0, high]);
}

/// Level holes of 10 mm across, and axes that dip by a cosine of 0.1.
fn bridge(d: &mut Draw, part: &mut Part, job: &mut Job) {
    job.overhang = Some(d.pick(&[300, 450, 600]));
    let radius = if d.one_in(2) { 0.5 * d.beside(10.0) } else { d.pick(&[2.0, 5.0]) };
    bored(d, part, radius, Frame { origin: [0.0; 3], x: Z, y: X, z: Y });
    if d.one_in(2) {
        let dip = d.beside(0.1);
        job.up = allowed_direction([0.0, dip, (1.0 - dip * dip).sqrt()]);
    }
}

/// A hollow of 1e-9 mm³, which is none; by itself, or in a block.
fn hollow(d: &mut Draw, part: &mut Part, job: &mut Job) {
    job.process = d.pick(&[SLA, SLS]);
    let at = d.pick(&[0.0, 0.0, 1.0]);
    let third = d.beside(0.001);
    part.hollow(1, [at; 3], [at + 0.001, at + 0.001, at + third]);
    if d.one_in(2) {
        part.block(2, [-5.0; 3], [5.0; 3]);
    }
    if d.one_in(3) {
        part.hollow(3, [at + 0.001, at, at], [at + 0.002, at + 0.001, at + 0.001]);
    }
}
