//! Bores of many facets, in the orders that a modeller gives them.
use common::bores::{Axis, Wall, WORLD};
use common::mesh::{Mesh, Point, Polygon};
use std::f64::consts::TAU;

/// One bore alone: so many columns of facets, each of so many strips, one above the other.
fn bore(columns: usize, strips: usize, triangles: bool, falling: bool) -> Mesh {
    let angles: Vec<f64> = (0..columns).map(|k| TAU * k as f64 / columns as f64).collect();
    let height = |s: usize| 10.0 * s as f64 / strips as f64;
    let strip = |s: usize| Wall {
        frame: WORLD,
        angles: angles.clone(),
        closed: true,
        radius: 50.0,
        heights: [height(s), height(s + 1)],
        inward: true,
        triangles,
    };
    let strips: Vec<Vec<Vec<Point>>> = (0..strips).map(|s| strip(s).polygons()).collect();
    let facet = if triangles { 2 } else { 1 };
    let mut facets: Vec<Vec<Point>> = (0..columns).flat_map(|k| strips.iter().flat_map(move |s| s[facet * k..facet * (k + 1)].to_vec())).collect();
    if falling {
        facets.reverse();
    }
    let mut mesh = Mesh::empty();
    for points in facets {
        let mut polygon = Polygon::new((1, 0), points);
        Axis { origin: [0.0; 3], dir: [0.0, 0.0, 1.0], radius: 50.0 }.on(&mut polygon);
        mesh.polygons.push(polygon);
    }
    mesh
}

/// Each with a name: rising, falling, in strips, and each facet as two triangles.
pub fn all() -> Vec<(String, Mesh)> {
    let mut list = Vec::new();
    let sizes = [(64, 1, false), (64, 1, true), (4096, 1, false), (2048, 1, true), (1024, 4, false), (512, 8, false), (512, 4, true), (256, 8, true)];
    for (columns, strips, triangles) in sizes {
        for falling in [false, true] {
            let (order, form) = (if falling { "falling" } else { "rising" }, if triangles { ", two triangles a facet" } else { "" });
            let name = format!("a bore of {columns} columns of {strips}, {order}{form}");
            list.push((name, bore(columns, strips, triangles, falling)));
        }
    }
    list
}
