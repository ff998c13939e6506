//! The edges of the part: where sides of facets meet.
use super::mesh::{sides, Facet};
use super::vector::{between, dot, length, mean, scale, sub, Point};
use std::collections::BTreeMap;

/// A turn of more than 30 degrees from facet to facet is an edge even within a face.
const SHARP: f64 = 0.866;

pub struct Edge {
    pub ends: [Point; 2],
    /// The facets that have it for a side.
    pub facets: Vec<usize>,
    /// How often it is run from its first end to its second, less how often back.
    balance: i64,
}

impl Edge {
    /// Each side meets one that runs the other way.
    pub fn is_closed(&self) -> bool {
        self.balance == 0
    }

    /// Whether it is drawn from every direction: at a border, between faces, or where a face turns sharply from polygon to polygon.
    pub fn is_sharp(&self, facets: &[Facet]) -> bool {
        let [i, j] = self.facets[..] else { return true };
        let (a, b) = (&facets[i], &facets[j]);
        a.face != b.face || a.polygon != b.polygon && dot(a.normal, b.normal) < SHARP
    }

    /// Whether two faces meet here and each rises from the other.
    pub fn is_inside_corner(&self, facets: &[Facet]) -> bool {
        let [i, j] = self.facets[..] else { return false };
        let (a, b) = (&facets[i], &facets[j]);
        let middle = between(self.ends[0], self.ends[1], 0.5);
        let rises = |from: &Facet, to: &Facet| dot(sub(mean(&to.corners), middle), from.normal) > 1e-9;
        a.face != b.face && rises(a, b) && rises(b, a)
    }
}

pub type Key = [i64; 3];

/// Points nearer to each other than the step are taken for one; most of them have one key.
pub fn key(p: Point, step: f64) -> Key {
    p.map(|x| (x / step.max(1e-300)).round() as i64)
}

type Table = BTreeMap<(Key, Key), Edge>;

pub fn of(facets: &[Facet], step: f64) -> Vec<Edge> {
    let mut table = Table::new();
    for (i, facet) in facets.iter().enumerate() {
        for ends in sides(&facet.corners) {
            put(&mut table, ends, i, step);
        }
    }
    meet_in_between(&mut table, step);
    table.into_values().collect()
}

fn put(table: &mut Table, [a, b]: [Point; 2], facet: usize, step: f64) {
    let (from, to) = (key(a, step), key(b, step));
    if from == to {
        return;
    }
    let forward = from < to;
    let (pair, ends) = if forward { ((from, to), [a, b]) } else { ((to, from), [b, a]) };
    let edge = table.entry(pair).or_insert(Edge { ends, facets: vec![], balance: 0 });
    edge.facets.push(facet);
    edge.balance += if forward { 1 } else { -1 };
}

/// A long side may meet several short ones: sides that meet none are cut where others end on them.
fn meet_in_between(table: &mut Table, step: f64) {
    let alone: Vec<(Key, Key)> = table.iter().filter(|(_, edge)| edge.facets.len() == 1).map(|(pair, _)| *pair).collect();
    let alone: Vec<Edge> = alone.iter().filter_map(|pair| table.remove(pair)).collect();
    let mut stops: Vec<Point> = alone.iter().flat_map(|edge| edge.ends).collect();
    stops.sort_by(|a, b| a[0].total_cmp(&b[0]).then(a[1].total_cmp(&b[1])).then(a[2].total_cmp(&b[2])));
    stops.dedup();
    for edge in &alone {
        let path = cuts(edge.ends, &stops, step);
        for pair in path.windows(2) {
            let ends = if edge.balance > 0 { [pair[0], pair[1]] } else { [pair[1], pair[0]] };
            put(table, ends, edge.facets[0], step);
        }
    }
}

/// A side's ends, and between them the stops that lie on it. The stops are sorted by x.
fn cuts([a, b]: [Point; 2], stops: &[Point], step: f64) -> Vec<Point> {
    let along = sub(b, a);
    let square = dot(along, along);
    let (lo, hi) = ([0, 1, 2].map(|i| a[i].min(b[i]) - step), [0, 1, 2].map(|i| a[i].max(b[i]) + step));
    let start = stops.partition_point(|p| p[0] < lo[0]);
    let near = stops[start..].iter().take_while(|p| p[0] <= hi[0]);
    let mut on: Vec<(f64, Point)> = vec![];
    for &p in near.filter(|p| (1..3).all(|i| lo[i] <= p[i] && p[i] <= hi[i])) {
        let t = dot(sub(p, a), along) / square;
        let off = length(sub(sub(p, a), scale(along, t)));
        if t > 0.0 && t < 1.0 && off < step {
            on.push((t, p));
        }
    }
    on.sort_by(|p, q| p.0.total_cmp(&q.0));
    [a].into_iter().chain(on.into_iter().map(|(_, p)| p)).chain([b]).collect()
}

#[cfg(test)]
mod tests {
    use super::*;

    fn facet(face: usize, corners: &[Point]) -> Facet {
        Facet { polygon: 0, face, corners: corners.to_vec(), normal: [0.0, 0.0, 1.0], look: [0.0, 0.0, 1.0] }
    }

    #[test]
    fn a_long_side_meets_two_short_ones() {
        let below = facet(0, &[[0.0, 0.0, 0.0], [2.0, 0.0, 0.0], [2.0, 1.0, 0.0], [0.0, 1.0, 0.0]]);
        let left = facet(0, &[[0.0, 1.0, 0.0], [1.0, 1.0, 0.0], [1.0, 2.0, 0.0], [0.0, 2.0, 0.0]]);
        let right = facet(1, &[[1.0, 1.0, 0.0], [2.0, 1.0, 0.0], [2.0, 2.0, 0.0], [1.0, 2.0, 0.0]]);
        let facets = [below, left, right];
        let edges = of(&facets, 1e-6);
        let inner: Vec<&Edge> = edges.iter().filter(|e| e.facets.len() == 2).collect();
        assert_eq!(inner.len(), 3);
        assert!(inner.iter().all(|e| e.is_closed()));
        assert_eq!(inner.iter().filter(|e| e.is_sharp(&facets)).count(), 2);
        assert_eq!(edges.len(), 10);
        assert!(edges.iter().filter(|e| e.facets.len() == 1).all(|e| !e.is_closed() && e.is_sharp(&facets)));
    }
}
