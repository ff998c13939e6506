//! Ids of faces.
use crate::mesh::Mesh;
use crate::random::Random;
use crate::shapes::pick;
use std::collections::{HashMap, HashSet};

/// Feature and index.
pub type Id = (u32, u32);

/// The id of each face, by its number: faces are numbered in the order of their first polygons.
pub fn of_faces(mesh: &Mesh) -> Vec<Id> {
    let mut seen = HashSet::new();
    mesh.polygons.iter().map(|p| p.face()).filter(|id| seen.insert(*id)).collect()
}

/// Other ids for the faces, one for one: in any order, alike in one of the two numbers, up to the largest.
pub fn rename(random: &mut Random, mesh: &mut Mesh) {
    let way = random.below(5);
    let (mut given, mut taken) = (HashMap::new(), HashSet::new());
    for polygon in &mut mesh.polygons {
        let id = *given.entry(polygon.face()).or_insert_with(|| loop {
            let id = draw(random, way);
            if taken.insert(id) {
                break id;
            }
        });
        polygon.set_face(id);
    }
}

fn draw(random: &mut Random, way: u64) -> Id {
    let any = random.next() as u32;
    match way {
        0 => (any, 0),
        1 => (u32::MAX, any),
        2 => (u32::MAX - any % 3, u32::MAX - random.below(2000) as u32),
        3 => (random.below(3) as u32, any % 2000),
        _ => (pick(random, &[0, 1, 1 << 31, (1 << 31) - 1, u32::MAX]), any),
    }
}
