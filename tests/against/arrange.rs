//! What is done to a part as a whole: where it stands, the order of its polygons, how its faces are named, cut and put together.
use common::bores::Frame;
use common::field::{real, set_real, set_word, word};
use common::ids;
use common::mesh::{Mesh, Point};
use common::random::Random;
use common::shapes::{pick, shuffle};

pub fn arranged(random: &mut Random, mesh: &mut Mesh) {
    if mesh.polygons.is_empty() {
        return;
    }
    match random.below(8) {
        0 | 1 => cut_face(random, mesh),
        2 => join_faces(random, mesh),
        3 if random.below(2) == 0 => other_kind(random, mesh),
        _ => {}
    }
    ordered(random, mesh);
    if random.below(2) == 0 {
        moved(random, mesh);
    }
}

/// Which leaves every polygon where it is: in another order, begun elsewhere, other ids.
pub fn ordered(random: &mut Random, mesh: &mut Mesh) {
    if random.below(2) == 0 {
        shuffle(random, &mut mesh.polygons);
    }
    if random.below(4) == 0 {
        for polygon in &mut mesh.polygons {
            let by = random.below(polygon.points.len() as u64) as usize;
            polygon.points.rotate_left(by);
        }
    }
    if random.below(3) != 0 {
        ids::rename(random, mesh);
    }
}

fn any_face(random: &mut Random, mesh: &Mesh) -> (u32, u32) {
    mesh.polygons[random.below(mesh.polygons.len() as u64) as usize].face()
}

/// Some polygons of a face, most often of a cylinder, become another: two outsides then fit one inside, or a flange is in two.
fn cut_face(random: &mut Random, mesh: &mut Mesh) {
    let round: Vec<(u32, u32)> = mesh.polygons.iter().filter(|p| word(&p.entry, 16) == 1).map(|p| p.face()).collect();
    let face = if round.is_empty() || random.below(3) == 0 { any_face(random, mesh) } else { pick(random, &round) };
    for polygon in mesh.polygons.iter_mut().filter(|p| p.face() == face) {
        if random.below(2) == 0 {
            polygon.set_face((face.0, face.1 + 50));
        }
    }
}

/// Two faces become one: its first polygon says what it is.
fn join_faces(random: &mut Random, mesh: &mut Mesh) {
    let [from, to] = [0; 2].map(|_| any_face(random, mesh));
    mesh.polygons.iter_mut().filter(|p| p.face() == from).for_each(|p| p.set_face(to));
}

/// A face, or what of it comes first or later, is no plane and no cylinder.
fn other_kind(random: &mut Random, mesh: &mut Mesh) {
    let (face, whole) = (any_face(random, mesh), random.below(2) == 0);
    for polygon in mesh.polygons.iter_mut().filter(|p| p.face() == face) {
        if whole || random.below(2) == 0 {
            polygon.entry[24..].fill(0);
            set_word(&mut polygon.entry, 16, pick(random, &[3, 3, 0]));
        }
    }
}

/// To another place, in quarter turns or any, axes too, unless that leaves the range.
fn moved(random: &mut Random, mesh: &mut Mesh) {
    let frame = Frame::draw(random);
    let mut copy = mesh.clone();
    copy.points_mut().for_each(|p| *p = frame.at(p[0], p[1], p[2]));
    let turned = Frame { origin: [0.0; 3], ..frame };
    for entry in copy.polygons.iter_mut().map(|p| &mut p.entry).filter(|e| [1, 2].contains(&word(e, 16))) {
        let vector = |entry: &[u8], at: usize| [0, 8, 16].map(|k| real(entry, at + k));
        let (origin, axis) = (vector(entry, 24), vector(entry, 48));
        set(entry, 24, frame.at(origin[0], origin[1], origin[2]));
        set(entry, 48, turned.at(axis[0], axis[1], axis[2]));
    }
    if copy.is_allowed() && oracle::refusal(&copy.bytes()) == 0 {
        *mesh = copy;
    }
}

fn set(entry: &mut [u8], at: usize, v: Point) {
    v.iter().enumerate().for_each(|(k, c)| set_real(entry, at + 8 * k, *c));
}
