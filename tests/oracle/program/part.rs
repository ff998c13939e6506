//! The part file: refusals 1 to 9 in their order, and the body and job that the Rust's check takes.
use crate::dfm::{PrintSettings, Process};
use crate::material::{Material, MaterialClass};
use crate::math::{v3, Vec3};
use crate::solid::{FaceId, FaceTag, Polygon, Solid, SurfaceKind};
use std::collections::HashSet;

pub struct PartFile {
    pub vertices: usize,
    pub polygons: usize,
    pub body: Solid,
    pub material: Option<Material>,
    pub process: Process,
    pub print: PrintSettings,
}

const TRAILER: usize = 16;
const JOB: usize = 128;
const MATERIAL: u32 = 1;
const NOZZLE: u32 = 2;
const OVERHANG: u32 = 4;
const BEND_RATIO: u32 = 8;

fn word(b: &[u8], at: usize) -> u32 {
    u32::from_le_bytes(b[at..at + 4].try_into().unwrap())
}

fn bits(b: &[u8], at: usize) -> u64 {
    u64::from_le_bytes(b[at..at + 8].try_into().unwrap())
}

fn real(b: &[u8], at: usize) -> f64 {
    f64::from_bits(bits(b, at))
}

fn vector(b: &[u8], at: usize) -> Vec3 {
    v3(real(b, at), real(b, at + 8), real(b, at + 16))
}

/// By value: minus zero passes where zero does, and a NaN nowhere.
fn within(lo: f64, x: f64, hi: f64) -> bool {
    lo <= x && x <= hi
}

fn all_within(v: Vec3, most: f64) -> bool {
    within(-most, v.x, most) && within(-most, v.y, most) && within(-most, v.z, most)
}

fn is_direction(v: Vec3) -> bool {
    all_within(v, 2.0) && within(0.25, v.length_sq(), 4.0)
}

/// Where the flag is not set the field's bits are zero.
fn flagged_real(b: &[u8], at: usize, flag: bool, lo: f64, hi: f64) -> bool {
    if flag {
        within(lo, real(b, at), hi)
    } else {
        bits(b, at) == 0
    }
}

fn flagged_word(b: &[u8], at: usize, flag: bool, lo: u32, hi: u32) -> bool {
    if flag {
        lo <= word(b, at) && word(b, at) <= hi
    } else {
        word(b, at) == 0
    }
}

fn job_is_good(b: &[u8]) -> bool {
    let flags = word(b, 4);
    let has = |flag: u32| flags & flag != 0;
    let name = &b[88..128];
    let length = word(b, 76) as usize;
    word(b, 0) <= 4
        && flags <= 15
        && (has(MATERIAL) || !has(BEND_RATIO))
        && is_direction(vector(b, 8))
        && within(0.001, real(b, 32), 1e3)
        && flagged_real(b, 40, has(NOZZLE), 0.0, 1e3)
        && within(0.0, real(b, 48), 1e4)
        && within(0.0, real(b, 56), 1e4)
        && flagged_word(b, 64, has(OVERHANG), 0, 900)
        && flagged_word(b, 68, has(MATERIAL), 0, 1)
        && flagged_word(b, 72, has(BEND_RATIO), 0, 100_000)
        && flagged_word(b, 76, has(MATERIAL), 1, 40)
        && flagged_real(b, 80, has(MATERIAL), -1e4, 1e4)
        && name.iter().enumerate().all(|(i, c)| if i < length { (0x20..=0x7e).contains(c) } else { *c == 0 })
}

/// A polygon entry's surface, where the entry is good.
fn surface(b: &[u8]) -> Option<SurfaceKind> {
    let zero = |from: usize| (from..80).all(|i| b[i] == 0);
    let (axis_origin, axis_dir, radius) = (vector(b, 24), vector(b, 48), real(b, 72));
    let axis = all_within(axis_origin, 1e4) && is_direction(axis_dir);
    match word(b, 16) {
        0 if zero(24) => Some(SurfaceKind::Plane),
        1 if axis && within(0.001, radius, 1e4) => Some(SurfaceKind::Cylinder { axis_origin, axis_dir, radius }),
        2 if axis && zero(72) => Some(SurfaceKind::Revolved { axis_origin, axis_dir }),
        3 if zero(24) => Some(SurfaceKind::Other),
        _ => None,
    }
}

/// A polygon entry: its tag and its run of vertices, which follows on from `first`.
fn entry(b: &[u8], first: usize, vertices: usize) -> Option<(FaceTag, usize)> {
    let count = word(b, 12) as usize;
    let run = word(b, 8) as usize == first && (3..=64).contains(&count) && first + count <= vertices;
    if !run || word(b, 20) != 0 {
        return None;
    }
    let id = FaceId { feature: word(b, 0), index: word(b, 4) };
    Some((FaceTag { id, surface: surface(b)? }, count))
}

fn process(number: u32) -> Process {
    Process::ALL[number as usize]
}

fn material(b: &[u8]) -> Option<Material> {
    let flags = word(b, 4);
    if flags & MATERIAL == 0 {
        return None;
    }
    let length = word(b, 76) as usize;
    let name = std::str::from_utf8(&b[88..88 + length]).unwrap();
    let mut m = Material::simple(name, 0.0);
    m.class = if word(b, 68) == 0 { MaterialClass::Metal } else { MaterialClass::Plastic };
    m.min_wall = real(b, 80);
    m.min_bend_ratio = (flags & BEND_RATIO != 0).then(|| word(b, 72) as f64 / 1000.0);
    Some(m)
}

fn print_settings(b: &[u8]) -> PrintSettings {
    let flags = word(b, 4);
    PrintSettings {
        up: vector(b, 8),
        layer: real(b, 32),
        nozzle: (flags & NOZZLE != 0).then(|| real(b, 40)),
        min_wall: real(b, 48),
        min_hole: real(b, 56),
        overhang: (flags & OVERHANG != 0).then(|| word(b, 64) as f64 / 10.0),
    }
}

pub fn read(b: &[u8]) -> Result<PartFile, u32> {
    if b.len() < JOB + TRAILER {
        return Err(1);
    }
    let trailer = &b[b.len() - TRAILER..];
    if word(trailer, 0) != 1 {
        return Err(2);
    }
    let (v, p) = (word(trailer, 4) as usize, word(trailer, 8) as usize);
    if v > 16_384 || p > 4_096 {
        return Err(3);
    }
    if b.len() != 24 * v + 80 * p + 144 || word(trailer, 12) as usize != 80 * p + 144 {
        return Err(4);
    }
    let job = &b[24 * v + 80 * p..][..JOB];
    if !job_is_good(job) {
        return Err(5);
    }
    let vertices: Vec<Vec3> = (0..v).map(|i| vector(b, 24 * i)).collect();
    if !vertices.iter().all(|&x| all_within(x, 1e4)) {
        return Err(6);
    }
    let mut first = 0;
    let mut entries = Vec::new();
    for i in 0..p {
        let (tag, count) = entry(&b[24 * v + 80 * i..][..80], first, v).ok_or(7u32)?;
        entries.push((tag, first..first + count));
        first += count;
    }
    if first != v {
        return Err(7);
    }
    let polygons: Option<Vec<Polygon>> = entries.into_iter().map(|(tag, run)| Polygon::new(vertices[run].to_vec(), tag)).collect();
    let polygons = polygons.ok_or(8u32)?;
    if polygons.iter().map(|p| p.tag.id).collect::<HashSet<_>>().len() > 1024 {
        return Err(9);
    }
    Ok(PartFile {
        vertices: v,
        polygons: p,
        body: Solid::new(polygons),
        material: material(job),
        process: process(word(job, 0)),
        print: print_settings(job),
    })
}
