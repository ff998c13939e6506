//! What the comparison is to see, and how often each of it occurs in a part.
use against::counts::{Counts, SMALL};
use against::frame::Rules;
use common::field::{real, word};
use common::ids::Id;
use common::mesh::Mesh;
use oracle::faults::{DfmReport, Part};
use oracle::lists::Lists;
use oracle::math::Vec3;
use oracle::measures::{Measures, Round};
use oracle::solid::{FaceId, Solid, SurfaceKind};
use std::collections::BTreeMap;

/// What is to occur beside what every process has, and how often at the least.
const WANTED: [(&str, u64); 13] = [
    ("Thin wall, Error", 1_000),
    ("Thin wall, Warning", 1_000),
    ("Small hole, Warning", 1_000),
    ("Deep hole, Warning", 1_000),
    ("Deep hole, Note", 1_000),
    ("Tight inside radius, Warning", 1_000),
    ("Deep inside corner, Warning", 1_000),
    ("Sharp inside corner, Warning", 1_000),
    ("one face twice", 300),
    ("a material's min_wall that is not above 0", 1_000),
    ("a corner of several segments with other midpoints", 1_000),
    ("the last midpoint decides", 300),
    ("the first normals decide", 300),
];

/// Each occurs on the limit, one f64 below it and one above.
const LIMITS: [&str; 9] = [
    "wall",
    "half a wall",
    "hole of 1 mm",
    "10 diameters",
    "4 diameters",
    "radius of 0.5 mm",
    "4 tool diameters",
    "cosine of 0.99",
    "centroid at 1e-9",
];

/// A concave segment of two faces: its middle and the normals, by rising id.
#[derive(Clone, Copy)]
struct Corner {
    mid: Vec3,
    normals: [Vec3; 2],
}

pub struct Machining;

impl Rules for Machining {
    const PROCESSES: &'static [u32] = &[0];

    fn wanted() -> Counts {
        Counts::of_rules(&WANTED, &LIMITS)
    }

    fn note(counts: &mut Counts, mesh: &Mesh, faces: &[Id], part: &Part, report: &DfmReport) {
        counts.findings(mesh, faces, &report.findings);
        for f in &report.findings {
            counts.add("one face twice", u64::from(matches!(&f.faces[..], [a, b] if a == b)));
        }
        if mesh.polygons.len() <= SMALL {
            let measures = Measures::of(part.body());
            walls(counts, mesh, &measures);
            measures.rounds().iter().filter(|r| r.concave).for_each(|r| round(counts, r));
            corners(counts, part.body(), &measures);
        }
    }
}

fn walls(counts: &mut Counts, mesh: &Mesh, measures: &Measures) {
    let with_material = word(&mesh.job, 4) & 1 == 1;
    let of_material = real(&mesh.job, 80);
    let least = if of_material > 0.0 { of_material } else { 0.8 };
    counts.add("a material's min_wall that is not above 0", u64::from(with_material && of_material <= 0.0));
    let mut thinnest: BTreeMap<[FaceId; 2], f64> = BTreeMap::new();
    for s in measures.readings() {
        let wall = thinnest.entry([s.face.min(s.hit), s.face.max(s.hit)]).or_insert(f64::INFINITY);
        *wall = wall.min(s.thickness);
    }
    for t in thinnest.into_values() {
        counts.limit("wall", t, least);
        counts.limit("half a wall", t, 0.5 * least);
    }
}

fn round(counts: &mut Counts, r: &Round) {
    let (d, ratio) = (2.0 * r.radius, r.length / (2.0 * r.radius));
    if r.hole {
        counts.limit("hole of 1 mm", d, 1.0);
        counts.limit("10 diameters", ratio, 10.0);
        counts.limit("4 diameters", ratio, 4.0);
    } else {
        counts.limit("radius of 0.5 mm", r.radius, 0.5);
        counts.limit("4 tool diameters", ratio, 4.0);
    }
}

fn corners(counts: &mut Counts, body: &Solid, measures: &Measures) {
    let open = |mid: Vec3, [a, b]: [Vec3; 2]| measures.is_open(mid + b * 1e-3, a) || measures.is_open(mid + a * 1e-3, b);
    let mut files = [false; 3];
    for list in concave(counts, body).into_values() {
        let (first, last) = (list[0], list[list.len() - 1]);
        files[0] |= first.mid != last.mid;
        if list.len() > 1 {
            let right = open(last.mid, first.normals);
            files[1] |= right != open(first.mid, first.normals);
            files[2] |= right != open(last.mid, last.normals);
        }
    }
    let names = ["a corner of several segments with other midpoints", "the last midpoint decides", "the first normals decide"];
    names.iter().zip(files).for_each(|(what, is)| counts.add(what, u64::from(is)));
}

/// The concave segments between planes, of each two faces in their order.
fn concave(counts: &mut Counts, body: &Solid) -> BTreeMap<[FaceId; 2], Vec<Corner>> {
    let lists = Lists::of(body);
    let mut corners: BTreeMap<_, Vec<Corner>> = BTreeMap::new();
    for s in &lists.segments {
        let [p, q] = s.polygons.map(|k| &body.polygons[k]);
        if p.tag.id == q.tag.id || p.tag.surface != SurfaceKind::Plane || q.tag.surface != SurfaceKind::Plane {
            continue;
        }
        let mid = (s.ends[0] + s.ends[1]) * 0.5;
        let (cosine, above) = (p.normal.dot(q.normal), (lists.polygons[s.polygons[1]].centroid - mid).dot(p.normal));
        if above > 1e-9 {
            counts.limit("cosine of 0.99", cosine, 0.99);
        }
        if cosine < 0.99 {
            counts.limit("centroid at 1e-9", above, 1e-9);
        }
        if cosine < 0.99 && above > 1e-9 {
            let [low, high] = if p.tag.id <= q.tag.id { [p, q] } else { [q, p] };
            corners.entry([low.tag.id, high.tag.id]).or_default().push(Corner { mid, normals: [low.normal, high.normal] });
        }
    }
    corners
}
