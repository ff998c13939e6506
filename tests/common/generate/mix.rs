//! One file: a shape, its job, where it stands, and what is done to its bytes.
use crate::generate::draw::Draw;
use crate::generate::job::{Job, CNC, FDM, SHEET, SLA, SLS};
use crate::generate::part::{Kind, Part};
use crate::generate::space::{allowed_direction, Frame};
use crate::generate::{cover, damage, file, hollow, limits, limits_print, limits_sheet, plate, sheet, soup, stand, step};

pub struct Made {
    pub shape: &'static str,
    pub process: u32,
    pub mutation: String,
    pub bytes: Vec<u8>,
}

/// A shape alone, with the processes it is for; or a shape with the job whose limits it is at.
enum Maker {
    Shape(fn(&mut Draw, &mut Part), &'static [u32]),
    Limit(fn(&mut Draw, &mut Part) -> Job),
    Noise,
}

use Maker::{Limit, Noise, Shape};

const ALL: &[u32] = &[CNC, SHEET, FDM, SLA, SLS];
const PRINTING: &[u32] = &[FDM, SLA, SLS];

/// How many of 2,000 files are of each shape; large parts are slow, so they are rare.
const SHAPES: &[(usize, &str, Maker)] = &[
    (240, "plate", Shape(plate::plates, &[CNC, CNC, CNC, SHEET, FDM, SLA, SLS])),
    (20, "bore row", Shape(plate::rows, &[CNC, CNC, SHEET, SHEET, FDM, SLS])),
    (160, "pocket", Shape(plate::pockets, &[CNC, CNC, CNC, CNC, FDM, SLA])),
    (240, "bracket", Shape(sheet::brackets, &[SHEET, SHEET, SHEET, SHEET, SHEET, CNC, FDM])),
    (120, "hollow", Shape(hollow::hollows, &[SLA, SLS, SLA, SLS, FDM, CNC])),
    (140, "corner", Shape(step::corners, &[CNC, CNC, CNC, CNC, FDM, SLS])),
    (120, "rib", Shape(step::ribs, &[FDM, SLA, SLS, CNC])),
    (100, "pin", Shape(stand::pins, &[FDM, SLA, SLS, CNC])),
    (80, "thin block", Shape(stand::thin_blocks, ALL)),
    (80, "ramp", Shape(stand::ramps, PRINTING)),
    (50, "table", Shape(stand::tables, PRINTING)),
    (70, "cross bore", Shape(stand::cross_bores, PRINTING)),
    (130, "soup", Shape(soup::soup, ALL)),
    (140, "machining limit", Limit(limits::machining)),
    (150, "sheet limit", Limit(limits_sheet::sheet)),
    (120, "printing limit", Limit(limits_print::printing)),
    (9, "cover", Shape(cover::covers, ALL)),
    (1, "full", Shape(cover::full, ALL)),
    (10, "many faces", Shape(cover::many_faces, ALL)),
    (12, "empty", Shape(|_, _| {}, ALL)),
    (8, "noise", Noise),
];

pub fn make(seed: u64, number: u64) -> Made {
    let mut d = Draw::of(seed, number);
    let (shape, drawn) = draw_part(&mut d);
    match drawn {
        None => noise(&mut d, shape),
        Some((part, job, still)) => finish(&mut d, shape, part, job, still),
    }
}

/// The shape alone, as drawn: before it is turned, shuffled and damaged.
pub fn bare(seed: u64, number: u64) -> (&'static str, Part) {
    let (shape, drawn) = draw_part(&mut Draw::of(seed, number));
    (shape, drawn.map(|(part, ..)| part).unwrap_or_default())
}

/// The name of the shape, and but for noise the part, its job, and whether it stays where it is.
fn draw_part(d: &mut Draw) -> (&'static str, Option<(Part, Job, bool)>) {
    let (_, shape, maker) = draw_shape(d);
    let mut part = Part::default();
    let drawn = match maker {
        Noise => None,
        Limit(build) => {
            let job = build(d, &mut part);
            Some((part, job, true))
        }
        Shape(build, processes) => {
            let process = d.pick(processes);
            build(d, &mut part);
            Some((part, Job::draw(d, process), false))
        }
    };
    (shape, drawn)
}

fn draw_shape(d: &mut Draw) -> &'static (usize, &'static str, Maker) {
    let total: usize = SHAPES.iter().map(|s| s.0).sum();
    let mut left = d.below(total);
    SHAPES
        .iter()
        .find(|s| {
            let here = left < s.0;
            left = left.saturating_sub(s.0);
            here
        })
        .expect("the draw is below the total")
}

fn finish(d: &mut Draw, shape: &'static str, mut part: Part, mut job: Job, still: bool) -> Made {
    let mut done: Vec<&str> = Vec::new();
    // Large parts stay in order: the copies would cost more than they show.
    if !part.polygons.is_empty() && part.polygons.len() <= 500 {
        if !still {
            stand_somewhere(d, &mut part, &mut job);
            if d.one_in(20) {
                part.mix_up(d);
                done.push("mixed up");
            }
        }
        part.shuffle(d);
    }
    let mut bytes = file::bytes(&part, &job);
    if d.one_in(6) {
        let times = if d.one_in(6) { 2 } else { 1 };
        for _ in 0..times {
            if damage::is_whole(&bytes) {
                done.push(damage::damage(d, &mut bytes));
            }
        }
    }
    let mutation = if done.is_empty() { "-".into() } else { done.join("+") };
    Made { shape, process: job.process, mutation, bytes }
}

/// Turned and moved, its up along with it, unless that leaves the range of coordinates.
fn stand_somewhere(d: &mut Draw, part: &mut Part, job: &mut Job) {
    let frame = Frame::draw(d);
    let mut moved = part.clone();
    moved.move_to(&frame);
    if in_range(&moved) {
        *part = moved;
        job.up = allowed_direction(frame.direction(job.up));
    }
}

fn in_range(part: &Part) -> bool {
    let inside = |v: &[f64; 3]| v.iter().all(|c| c.abs() <= 1e4);
    part.polygons.iter().all(|p| {
        let origin = match p.kind {
            Kind::Cylinder(o, ..) | Kind::Revolved(o, _) => inside(&o),
            _ => true,
        };
        origin && p.vertices.iter().all(inside)
    })
}

/// A few bytes of anything.
fn noise(d: &mut Draw, shape: &'static str) -> Made {
    let length = if d.one_in(3) { d.pick(&[0, 1, 143, 144, 145]) } else { d.below(201) };
    let mut bytes: Vec<u8> = (0..length).map(|_| d.bits() as u8).collect();
    if length >= 16 && d.one_in(2) {
        bytes[length - 16..length - 12].copy_from_slice(&1u32.to_le_bytes());
    }
    Made { shape, process: CNC, mutation: "-".into(), bytes }
}
