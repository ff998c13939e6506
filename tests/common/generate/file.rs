//! A part and its job as the bytes of a part file.
use crate::generate::job::Job;
use crate::generate::part::{Kind, Part, Polygon};
use crate::generate::space::V;

pub fn bytes(part: &Part, job: &Job) -> Vec<u8> {
    let (v, p) = (part.vertex_count(), part.polygons.len());
    let mut out = Vec::with_capacity(24 * v + 80 * p + 144);
    for polygon in &part.polygons {
        for vertex in &polygon.vertices {
            vector(&mut out, *vertex);
        }
    }
    let mut first = 0;
    for polygon in &part.polygons {
        entry(&mut out, polygon, first);
        first += polygon.vertices.len() as u32;
    }
    job_bytes(&mut out, job);
    for word in [1, v as u32, p as u32, 80 * p as u32 + 144] {
        number(&mut out, word);
    }
    out
}

fn number(out: &mut Vec<u8>, n: u32) {
    out.extend_from_slice(&n.to_le_bytes());
}

fn float(out: &mut Vec<u8>, x: f64) {
    out.extend_from_slice(&x.to_le_bytes());
}

fn vector(out: &mut Vec<u8>, v: V) {
    v.iter().for_each(|c| float(out, *c));
}

fn entry(out: &mut Vec<u8>, polygon: &Polygon, first: u32) {
    const NONE: V = [0.0; 3];
    let (kind, origin, direction, radius) = match polygon.kind {
        Kind::Plane => (0, NONE, NONE, 0.0),
        Kind::Cylinder(o, a, r) => (1, o, a, r),
        Kind::Revolved(o, a) => (2, o, a, 0.0),
        Kind::Other => (3, NONE, NONE, 0.0),
    };
    let (feature, index) = polygon.face;
    for word in [feature, index, first, polygon.vertices.len() as u32, kind, 0] {
        number(out, word);
    }
    vector(out, origin);
    vector(out, direction);
    float(out, radius);
}

fn job_bytes(out: &mut Vec<u8>, job: &Job) {
    let flag = |on: bool, bit: u32| if on { bit } else { 0 };
    let m = job.material.as_ref();
    let ratio = m.and_then(|m| m.bend_ratio);
    number(out, job.process);
    number(
        out,
        flag(m.is_some(), 1)
            + flag(job.nozzle.is_some(), 2)
            + flag(job.overhang.is_some(), 4)
            + flag(ratio.is_some(), 8),
    );
    vector(out, job.up);
    for x in [job.layer, job.nozzle.unwrap_or(0.0), job.min_wall, job.min_hole] {
        float(out, x);
    }
    let name = m.map_or(&[][..], |m| &m.name);
    number(out, job.overhang.unwrap_or(0));
    number(out, m.map_or(0, |m| m.class));
    number(out, ratio.unwrap_or(0));
    number(out, name.len() as u32);
    float(out, m.map_or(0.0, |m| m.min_wall));
    let mut field = [0u8; 40];
    field[..name.len()].copy_from_slice(name);
    out.extend_from_slice(&field);
}
