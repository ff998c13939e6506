//! What the Rust finds of a body on the way to its report, each list in the Rust's own order and with the Rust's own numbers.
use crate::dfm;
use crate::math::Vec3;
use crate::solid::Solid;
use std::collections::BTreeMap;

pub struct PolygonNumbers {
    /// dfm.rs `poly_area` and `centroid`.
    pub area: f64,
    pub centroid: Vec3,
}

pub struct Segment {
    pub ends: [Vec3; 2],
    /// The polygons of its two sides.
    pub polygons: [usize; 2],
}

/// A shell of `hollows`, before those that are not hollow are left out.
pub struct Body {
    /// By rising number, so the lowest is first.
    pub polygons: Vec<usize>,
    pub volume: f64,
}

pub struct Lists {
    pub polygons: Vec<PolygonNumbers>,
    pub segments: Vec<Segment>,
    pub bodies: Vec<Body>,
}

impl Lists {
    pub fn of(solid: &Solid) -> Lists {
        let polygons = solid.polygons.iter().map(|p| PolygonNumbers { area: dfm::poly_area(&p.verts), centroid: dfm::centroid(&p.verts) });
        let segments = solid.shared_segments().into_iter().map(|(ends, i, j)| Segment { ends, polygons: [i, j] });
        Lists { polygons: polygons.collect(), segments: segments.collect(), bodies: bodies(solid) }
    }
}

fn bodies(solid: &Solid) -> Vec<Body> {
    let mut members: BTreeMap<usize, Vec<usize>> = BTreeMap::new();
    for (p, root) in dfm::roots(solid).into_iter().enumerate() {
        members.entry(root).or_default().push(p);
    }
    dfm::shells(solid)
        .into_iter()
        .map(|(root, (volume, _))| Body { polygons: members.remove(&root).expect("a shell has polygons"), volume })
        .collect()
}
