//! Parts of as many faults as there may be, in few lines or in many.
use crate::mesh::Mesh;
use crate::{sample, voxels};

/// Pits of three walls, a sharp corner for each two; all of one length, or each of its own.
pub fn corners(pits: usize, differ: bool) -> Mesh {
    let mut mesh = voxels::pits(pits, 0);
    if differ {
        for (wall, polygon) in mesh.polygons.iter_mut().enumerate() {
            let (pit, i) = (wall / 3, wall % 3);
            let height = |corner: usize| 1.0 + 0.01 * (3 * pit + corner) as f64;
            polygon.points[2][2] = height(i);
            polygon.points[3][2] = height((i + 1) % 3);
        }
    }
    mesh.job = sample::job(0, 0, b"");
    mesh
}

/// Hollows of one triangle each, no two of which touch, of so many volumes; for SLS.
pub fn hollows(count: usize, volumes: usize) -> Mesh {
    let mut mesh = Mesh::empty();
    for k in 0..count {
        let [x, y] = [3.0 * (k % 64) as f64, 3.0 * (k / 64) as f64];
        let z = -1.0 - 0.5 * (k % volumes) as f64;
        mesh.push((8, (k % 1024) as u32), vec![[x, y, z], [x + 2.0, y, z], [x, y + 2.0, z]]);
    }
    mesh.job = sample::job(4, 0, b"");
    mesh
}
