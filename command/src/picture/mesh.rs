//! The part's polygons as they are drawn: as facets that are flat and have no inward corner.
use super::edges::{self, Edge};
use super::triangles::triangles;
use super::vector::{bounds, cross, dot, length, normal, sub, unit, Point};
use crate::part::Part;
use gablemadder::Face;
use std::collections::{BTreeMap, BTreeSet};

/// A polygon of the part, or a triangle of one that is not flat or has inward corners.
pub struct Facet {
    /// The number of its polygon in the part.
    pub polygon: usize,
    /// Which of the mesh's faces it belongs to.
    pub face: usize,
    pub corners: Vec<Point>,
    /// Outwards, of length 1.
    pub normal: Point,
    /// The polygon's normal, by which the facet is shaded: the triangles of a polygon look alike.
    pub look: Point,
}

pub struct Mesh {
    /// In the order of their names.
    pub faces: Vec<Face>,
    pub facets: Vec<Facet>,
    pub edges: Vec<Edge>,
    /// Whether only the outer side of each facet can be seen: the body is closed, and no shell of it is turned inside out.
    pub is_solid: bool,
}

impl Mesh {
    pub fn new(part: &Part) -> Mesh {
        let faces: BTreeSet<Face> = part.polygons.iter().map(|p| p.face).collect();
        let faces: Vec<Face> = faces.into_iter().collect();
        let [lo, hi] = bounds(part.vertices.iter().copied());
        let size = length(sub(hi, lo));
        let mut facets = vec![];
        for (i, polygon) in part.polygons.iter().enumerate() {
            let face = faces.binary_search(&polygon.face).expect("all faces are listed");
            facets.extend(cut(i, face, part.corners(polygon), size));
        }
        let step = (1e-6 * size).min(1e-4);
        let edges = edges::of(&facets, step);
        let is_solid = edges.iter().all(Edge::is_closed) && shells(&facets, step).into_iter().all(|volume| volume > 0.0);
        Mesh { faces, facets, edges, is_solid }
    }
}

/// The facets of a polygon: itself, if it is flat and no corner of it points inwards, or triangles. Without an area there is nothing to fill.
fn cut(polygon: usize, face: usize, corners: &[Point], size: f64) -> Vec<Facet> {
    let whole = normal(corners);
    let has_area = |normal: Point| length(normal) > 1e-12 * size * size;
    if !has_area(whole) {
        return vec![];
    }
    let look = unit(whole);
    let facet = |corners: Vec<Point>, normal: Point| Facet { polygon, face, corners, normal: unit(normal), look };
    let tolerance = 2e-6 * size;
    if is_flat(corners, look, tolerance) && is_convex(corners, look, tolerance) {
        return vec![facet(corners.to_vec(), whole)];
    }
    let all = triangles(corners, look).into_iter().map(|triangle| facet(triangle.to_vec(), normal(&triangle)));
    all.filter(|facet| has_area(normal(&facet.corners))).collect()
}

fn is_flat(corners: &[Point], normal: Point, tolerance: f64) -> bool {
    corners.iter().all(|&p| dot(sub(p, corners[0]), normal).abs() <= tolerance)
}

/// Every corner lies on the inner side of every side.
fn is_convex(corners: &[Point], normal: Point, tolerance: f64) -> bool {
    sides(corners).all(|[a, b]| {
        let along = sub(b, a);
        let inward = cross(normal, along);
        let least = -tolerance * length(along);
        corners.iter().all(|&p| dot(sub(p, a), inward) >= least)
    })
}

/// The sides of a polygon, each from a corner to the next.
pub fn sides(corners: &[Point]) -> impl Iterator<Item = [Point; 2]> + '_ {
    (0..corners.len()).map(|i| [corners[i], corners[(i + 1) % corners.len()]])
}

/// The volumes of the shells; facets that have a corner in common belong to one shell.
fn shells(facets: &[Facet], step: f64) -> Vec<f64> {
    let mut parents: Vec<usize> = (0..facets.len()).collect();
    let mut first: BTreeMap<[i64; 3], usize> = BTreeMap::new();
    for (i, facet) in facets.iter().enumerate() {
        for &corner in &facet.corners {
            let j = *first.entry(edges::key(corner, step)).or_insert(i);
            let (a, b) = (root(&mut parents, i), root(&mut parents, j));
            parents[a.max(b)] = a.min(b);
        }
    }
    let mut volumes: BTreeMap<usize, f64> = BTreeMap::new();
    for (i, facet) in facets.iter().enumerate() {
        // Six times the volume: its sign is all that matters.
        let volume = dot(facet.corners[0], normal(&facet.corners));
        *volumes.entry(root(&mut parents, i)).or_default() += volume;
    }
    volumes.into_values().collect()
}

fn root(parents: &mut [usize], mut i: usize) -> usize {
    while parents[i] != i {
        parents[i] = parents[parents[i]];
        i = parents[i];
    }
    i
}

#[cfg(test)]
mod tests {
    use super::*;
    use crate::make;

    /// Planes alone; each has its own face.
    fn part(polygons: &[&[Point]]) -> Part {
        let mut text = String::from("part 1\njob\nprocess CNC\nup 0 0 1\nlayer 0.2\nmin_wall 0.8\nmin_hole 2\n");
        for (i, corners) in polygons.iter().enumerate() {
            text.push_str(&format!("face 1:{i} plane\npolygon\n"));
            corners.iter().for_each(|[x, y, z]| text.push_str(&format!("{x} {y} {z}\n")));
        }
        make::part(text.as_bytes()).unwrap()
    }

    const A: Point = [0.0, 0.0, 0.0];
    const B: Point = [1.0, 0.0, 0.0];
    const C: Point = [0.0, 1.0, 0.0];
    const D: Point = [0.0, 0.0, 1.0];

    #[test]
    fn a_closed_body_is_solid() {
        assert!(Mesh::new(&part(&[&[A, C, B], &[A, B, D], &[B, C, D], &[C, A, D]])).is_solid);
    }

    #[test]
    fn an_open_one_is_not_nor_one_turned_inside_out() {
        assert!(!Mesh::new(&part(&[&[A, C, B], &[A, B, D], &[B, C, D]])).is_solid);
        assert!(!Mesh::new(&part(&[&[A, B, C], &[A, D, B], &[B, D, C], &[C, D, A]])).is_solid);
        assert!(!Mesh::new(&part(&[&[A, C, B], &[A, B, D], &[B, C, D], &[C, D, A]])).is_solid);
    }

    #[test]
    fn polygons_are_cut_where_they_are_not_flat() {
        let bent = [A, B, [1.0, 1.0, 0.5], C];
        let dented = [A, B, [0.1, 0.1, 0.0], C];
        let flat = [A, B, [1.0, 1.0, 0.0], C];
        let mesh = Mesh::new(&part(&[&bent, &dented, &flat]));
        assert_eq!(mesh.facets.iter().map(|f| f.polygon).collect::<Vec<_>>(), [0, 0, 1, 1, 2]);
    }

    #[test]
    fn a_part_without_polygons_has_no_facets() {
        let mesh = Mesh::new(&part(&[]));
        assert!(mesh.facets.is_empty() && mesh.edges.is_empty());
    }
}
