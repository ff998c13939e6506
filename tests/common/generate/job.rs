//! The job of a part file: process, printer and material.
use crate::generate::draw::Draw;
use crate::generate::space::{allowed_direction, V, X, Y, Z};
use crate::vector::times;

pub const CNC: u32 = 0;
pub const SHEET: u32 = 1;
pub const FDM: u32 = 2;
pub const SLA: u32 = 3;
pub const SLS: u32 = 4;
pub const PROCESSES: [&str; 5] = ["CNC", "sheet", "FDM", "SLA", "SLS"];

#[derive(Clone)]
pub struct Material {
    pub class: u32,
    pub min_wall: f64,
    /// In thousandths.
    pub bend_ratio: Option<u32>,
    pub name: Vec<u8>,
}

#[derive(Clone)]
pub struct Job {
    pub process: u32,
    pub up: V,
    pub layer: f64,
    pub nozzle: Option<f64>,
    pub min_wall: f64,
    pub min_hole: f64,
    /// In tenths of a degree.
    pub overhang: Option<u32>,
    pub material: Option<Material>,
}

const NAMES: [&str; 10] = [
    "Aluminium 6061",
    "Stainless 316",
    "AISI 304",
    "Steel|mild",
    "S",
    "A name that fills all of the forty bytes",
    "stainless",
    "1304|x",
    "Nylon 12",
    " ~ ",
];

impl Job {
    pub fn draw(d: &mut Draw, process: u32) -> Job {
        let mut job = Job::defaults(process);
        if d.one_in(2) {
            job.vary(d);
        }
        job.up = draw_up(d);
        job.material = draw_material(d, process);
        job
    }

    /// As `PrintSettings::defaults`, with up along z as the shapes here stand.
    pub fn defaults(process: u32) -> Job {
        let (layer, nozzle, min_wall, min_hole, overhang) = match process {
            SLA => (0.05, None, 0.5, 0.5, Some(600)),
            SLS => (0.1, None, 0.8, 1.5, None),
            _ => (0.2, Some(0.4), 0.8, 2.0, Some(450)),
        };
        Job { process, up: Z, layer, nozzle, min_wall, min_hole, overhang, material: None }
    }

    fn vary(&mut self, d: &mut Draw) {
        self.layer = d.pick(&[0.05, 0.1, 0.2, 0.3, 0.5]);
        self.min_wall = d.pick(&[0.0, 0.4, 0.5, 0.8, 1.0, 1.2, 3.0]);
        self.min_hole = d.pick(&[0.0, 0.5, 1.0, 2.0, 5.0, 20.0]);
        let nozzle = d.pick(&[0.0, 0.25, 0.4, 0.6, 0.8, 1.0]);
        self.nozzle = if d.one_in(2) { Some(nozzle) } else { None };
        let tenths = match d.below(4) {
            0 => d.below(901) as u32,
            1 => d.pick(&[0, 1, 899, 900, 300, 305, 5]),
            2 => 600,
            _ => 450,
        };
        self.overhang = if d.one_in(4) { None } else { Some(tenths) };
        if d.one_in(6) {
            self.layer = d.size(0.001, 1000.0).max(0.001);
            self.min_wall = d.size(0.001, 1e4);
            self.min_hole = d.size(0.001, 1e4);
        }
    }
}

fn draw_up(d: &mut Draw) -> V {
    let length = if d.one_in(2) { 1.0 } else { d.pick(&[0.5, 2.0, 0.75, 1.25, 1.9]) };
    let axis = match d.below(10) {
        0..=5 => Z,
        6 | 7 => times(Z, -1.0),
        8 => times(d.pick(&[X, Y]), d.pick(&[1.0, -1.0])),
        _ => allowed_direction([0; 3].map(|_| d.between(-1.0, 1.0))),
    };
    allowed_direction(times(axis, length))
}

fn draw_material(d: &mut Draw, process: u32) -> Option<Material> {
    if d.one_in(3) {
        return None;
    }
    // Mostly what the process can work with, so that the later rules have their turn.
    let class = u32::from(d.one_in(if process == SHEET { 8 } else { 2 }));
    let bend_ratio = match d.below(8) {
        0 => None,
        1 => Some(d.pick(&[0, 1, 999, 1001, 100_000])),
        2 => Some(d.below(5000) as u32),
        _ => Some(d.pick(&[500, 1000, 1500, 2000, 250, 1200])),
    };
    let min_wall = match d.below(6) {
        0 => d.pick(&[0.0, -0.0, -1.0, 1e4, -1e4, 100.0]),
        1 => d.size(0.01, 10.0),
        _ => d.pick(&[0.5, 0.8, 1.0, 1.5, 2.0]),
    };
    Some(Material { class, min_wall, bend_ratio, name: draw_name(d) })
}

fn draw_name(d: &mut Draw) -> Vec<u8> {
    if !d.one_in(5) {
        return d.pick(&NAMES).as_bytes().to_vec();
    }
    let length = d.pick(&[1, 2, 5, 20, 39, 40]);
    (0..length).map(|_| d.from(0x20, 0x7e) as u8).collect()
}
