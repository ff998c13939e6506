//! Jobs for printing, and what a job says of the printer.
use crate::printing::ups;
use common::field::{real, set_real, set_word, word};
use common::mesh::Point;
use common::random::Random;
use common::sample::{self, GOOD_FLAGS};
use common::shapes::pick;
use oracle::faults::Process;

const NOZZLE: u32 = 2;
const OVERHANG: u32 = 4;

/// FDM, SLA and SLS.
pub const PROCESSES: [u32; 3] = [2, 3, 4];

#[derive(Clone)]
pub struct Print {
    pub up: Point,
    pub layer: f64,
    pub nozzle: Option<f64>,
    pub min_wall: f64,
    pub min_hole: f64,
    /// In tenths of a degree.
    pub overhang: Option<u32>,
}

impl Print {
    pub fn of(job: &[u8]) -> Print {
        let has = |flag: u32| word(job, 4) & flag != 0;
        Print {
            up: [8, 16, 24].map(|at| real(job, at)),
            layer: real(job, 32),
            nozzle: has(NOZZLE).then(|| real(job, 40)),
            min_wall: real(job, 48),
            min_hole: real(job, 56),
            overhang: has(OVERHANG).then(|| word(job, 64)),
        }
    }

    /// Into a job, of which process and material stay; each number brought into its range.
    pub fn put(&self, job: &mut [u8]) {
        let flag = |is: bool, flag: u32| if is { flag } else { 0 };
        let others = word(job, 4) & !(NOZZLE | OVERHANG);
        set_word(job, 4, others | flag(self.nozzle.is_some(), NOZZLE) | flag(self.overhang.is_some(), OVERHANG));
        (0..3).for_each(|k| set_real(job, 8 + 8 * k, self.up[k]));
        set_real(job, 32, self.layer.clamp(0.001, 1e3));
        set_real(job, 40, self.nozzle.map_or(0.0, |n| n.clamp(0.0, 1e3)));
        set_real(job, 48, self.min_wall.clamp(0.0, 1e4));
        set_real(job, 56, self.min_hole.clamp(0.0, 1e4));
        set_word(job, 64, self.overhang.unwrap_or(0));
    }
}

pub fn change(job: &mut [u8], change: impl FnOnce(&mut Print)) {
    let mut print = Print::of(job);
    change(&mut print);
    print.put(job);
}

/// By the job's own process, which is one of the three.
pub fn process(job: &[u8]) -> Process {
    match word(job, 0) {
        3 => Process::Sla,
        4 => Process::Sls,
        _ => Process::Fdm,
    }
}

/// In tenths of a degree; in whole degrees some of their texts are rounded from a half.
pub fn tenths(random: &mut Random) -> u32 {
    let any = random.below(901) as u32;
    pick(random, &[any, any, 450, 450, 600, 300, 0, 1, 5, 15, 25, 445, 895, 899, 900])
}

/// Of any process of the three and any material; up in any direction.
pub fn draw(random: &mut Random) -> Vec<u8> {
    let name: Vec<u8> = (0..1 + random.below(40)).map(|_| 0x20 + random.below(0x5f) as u8).collect();
    let mut job = sample::job(pick(random, &PROCESSES), pick(random, &GOOD_FLAGS), &name);
    let numbers = Print {
        up: ups::draw(random),
        layer: pick(random, &[0.2, 0.05, 0.1, 0.3, 0.5, 1.0, 2.0, 0.001, 1e3, 0.125, 0.005]),
        nozzle: (random.below(2) == 0).then(|| pick(random, &[0.4, 0.25, 0.6, 0.8, 1.0, 0.0, 0.0, 1e3, 0.375])),
        min_wall: pick(random, &[0.8, 0.5, 0.4, 1.0, 2.0, 5.0, 0.0, 1e4, 2.675]),
        min_hole: pick(random, &[2.0, 0.5, 1.5, 5.0, 20.0, 0.0, 1e4, 1.005]),
        overhang: (random.below(4) != 0).then(|| tenths(random)),
    };
    numbers.put(&mut job);
    job
}
