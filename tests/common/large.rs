//! Bodies of many polygons, each with a name: for the benchmark, and for the test, which small ones do not show everything to.
use crate::mesh::Mesh;
use crate::shapes::{block, part, ring, squares, triangles};
use crate::walls::patch;

type Named = (String, Mesh);

/// From 12 polygons, which are scanned, to about 1,000.
pub fn by_size() -> Vec<Named> {
    let named = |along: usize, around: usize| (format!("a ring of {} quads", along * around), part(ring(along, around), 16));
    [(4, 3), (4, 4), (6, 3), (6, 4), (8, 4), (8, 8), (16, 16), (32, 32)].map(|(along, around)| named(along, around)).to_vec()
}

/// About 4,000 polygons for a ray to be tried with.
pub fn for_rays() -> Vec<Named> {
    vec![
        ("a ring of 4,096 quads".into(), part(ring(64, 64), 16)),
        ("a ring of 4,096 triangles".into(), part(triangles(ring(64, 32)), 16)),
        ("a block of 4,096 squares".into(), part(squares([16, 16, 56]), 16)),
    ]
}

/// Faces of many triangles: of one area, or of two.
pub fn for_readings() -> Vec<Named> {
    let cover = |uneven: f64, n: usize| {
        let mut mesh = Mesh::empty();
        block(&mut mesh, 0, [0.0, 0.0, -5.0], [100.0, 100.0, 5.0], false);
        mesh.polygons.remove(1);
        patch([0.0; 3], 100.0, n, uneven).into_iter().for_each(|t| mesh.push((0, 1), t));
        mesh
    };
    vec![
        ("a face of 2,048 triangles of one area".into(), cover(0.0, 32)),
        ("a face of 2,048 triangles of two areas".into(), cover(0.25, 32)),
        ("a ring of 2,048 triangles in one face".into(), part(triangles(ring(32, 32)), 4096)),
    ]
}
