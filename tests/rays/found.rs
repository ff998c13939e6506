//! What is found of a part: its readings, what rays strike and whether they leave it; floats as their bits.
use common::ids::Id;
use oracle::math::{v3, Vec3};
use oracle::measures::{self, Measures};
use oracle::solid::FaceId;

pub type Bits = [u64; 3];

#[derive(PartialEq, Debug)]
pub struct Sample {
    /// Where its ray starts and what it hits, by their numbers.
    pub faces: [usize; 2],
    pub thickness: u64,
    /// Of the polygon that it starts from.
    pub area: u64,
    pub point: Bits,
    pub normal: Bits,
}

/// The polygon that a ray strikes, and t.
pub type Hit = Option<(u32, u64)>;

pub struct Found {
    pub samples: Vec<Sample>,
    /// Of each ray.
    pub hits: Vec<Hit>,
    pub open: Vec<bool>,
}

impl Found {
    /// By the Rust, whose faces have these ids.
    pub fn theirs(measures: &Measures, faces: &[Id], rays: &[f64]) -> Found {
        let bits = |v: Vec3| [v.x, v.y, v.z].map(f64::to_bits);
        let number = |id: FaceId| faces.iter().position(|f| *f == (id.feature, id.index)).expect("a face of the part");
        let sample = |s: &measures::Sample| Sample {
            faces: [number(s.face), number(s.hit)],
            thickness: s.thickness.to_bits(),
            area: s.area.to_bits(),
            point: bits(s.point),
            normal: bits(s.normal),
        };
        let rays = || rays.chunks(6).map(|r| (v3(r[0], r[1], r[2]), v3(r[3], r[4], r[5])));
        Found {
            samples: measures.readings().iter().map(sample).collect(),
            hits: rays().map(|(origin, dir)| measures.hit(origin, dir).map(|h| (h.polygon as u32, h.t.to_bits()))).collect(),
            open: rays().map(|(origin, dir)| measures.is_open(origin, dir)).collect(),
        }
    }

    /// An error that says where this differs first from what is wanted.
    pub fn compare(&self, wanted: &Found) -> Result<(), String> {
        same("reading", &self.samples, &wanted.samples)?;
        same("hit of ray", &self.hits, &wanted.hits)?;
        same("openness of ray", &self.open, &wanted.open)
    }
}

fn same<T: PartialEq + std::fmt::Debug>(what: &str, found: &[T], wanted: &[T]) -> Result<(), String> {
    if found.len() != wanted.len() {
        return Err(format!("{what}: {} for {}", found.len(), wanted.len()));
    }
    match found.iter().zip(wanted).position(|(a, b)| a != b) {
        Some(at) => Err(format!("{what} {at}: {:x?} for {:x?}", found[at], wanted[at])),
        None => Ok(()),
    }
}
