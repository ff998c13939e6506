//! The bodies of a part, and which of them are hollows.
use crate::steps::Steps;
use oracle::lists::{Body, Lists};
use oracle::math::Vec3;
use oracle::solid::{FaceId, Solid};
use std::collections::{HashMap, HashSet};

const LIMIT: f64 = -1e-9;

pub fn of(steps: &mut Steps, trapped: bool) {
    let body = steps.body;
    let bodies = Lists::of(body).bodies;
    bodies.iter().for_each(|b| steps.counts.limit("hollow", b.volume, LIMIT));
    let hollows: Vec<&Body> = bodies.iter().filter(|b| b.volume < LIMIT).collect();
    steps.add("several bodies", bodies.len() > 1);
    steps.add("a hollow that traps nothing", !hollows.is_empty() && !trapped);
    steps.add("several hollows", hollows.len() > 1 && trapped);
    if !trapped {
        return;
    }
    let boxes: Vec<[Vec3; 2]> = hollows.iter().map(|b| extent(body, b)).collect();
    let within = |a: &[Vec3; 2], b: &[Vec3; 2]| less(b[0], a[0]) && less(a[1], b[1]);
    steps.add("a hollow in a hollow", boxes.iter().any(|a| boxes.iter().any(|b| within(a, b))));
    let faces = |b: &Body| b.polygons.iter().map(|p| body.polygons[*p].tag.id).collect::<HashSet<FaceId>>();
    let apart = |k: usize| hollows[..k].iter().all(|b| faces(b).is_disjoint(&faces(hollows[k])));
    steps.add("a face of two hollows", (0..hollows.len()).any(|k| !apart(k)));
    steps.add("a face of a hollow and of another body", bodies.iter().any(|b| b.volume >= LIMIT && !faces(b).is_disjoint(&faces(hollows[0]))));
    steps.add("a face of several polygons of a hollow", hollows.iter().any(|b| faces(b).len() < b.polygons.len()));
    steps.add("ids of a hollow against the order of its polygons", hollows.iter().any(|b| !b.polygons.is_sorted_by_key(|p| body.polygons[*p].tag.id)));
    steps.add("bodies that keys of 1e4 would join", count(body, 1e4) < bodies.len());
    steps.add("bodies that finer keys would part", count(body, 1e6) > bodies.len());
    let text = |volume: f64| format!("{:.1}", -volume);
    steps.add("the volume is another in the other order", hollows.iter().any(|b| text(b.volume) != text(reversed(body, b))));
}

fn less(a: Vec3, b: Vec3) -> bool {
    a.x < b.x && a.y < b.y && a.z < b.z
}

fn extent(solid: &Solid, body: &Body) -> [Vec3; 2] {
    let corners = || body.polygons.iter().flat_map(|p| solid.polygons[*p].verts.iter());
    let first = *corners().next().expect("a body has corners");
    [corners().fold(first, |low, v| low.min(*v)), corners().fold(first, |high, v| high.max(*v))]
}

/// The volume by its polygons from the last on.
fn reversed(solid: &Solid, body: &Body) -> f64 {
    let mut volume = 0.0;
    for p in body.polygons.iter().rev() {
        let v = &solid.polygons[*p].verts;
        for k in 1..v.len() - 1 {
            volume += v[0].dot(v[k].cross(v[k + 1])) / 6.0;
        }
    }
    volume
}

/// How many bodies there are where corners of one key at this scale are one.
fn count(solid: &Solid, scale: f64) -> usize {
    let key = |v: &Vec3| [v.x, v.y, v.z].map(|c| (c * scale).round() as i64);
    let mut label: Vec<usize> = (0..solid.polygons.len()).collect();
    let mut first = HashMap::new();
    for (i, p) in solid.polygons.iter().enumerate() {
        for v in &p.verts {
            let j: usize = *first.entry(key(v)).or_insert(i);
            let (from, to) = (label[i].max(label[j]), label[i].min(label[j]));
            label.iter_mut().filter(|l| **l == from).for_each(|l| *l = to);
        }
    }
    label.into_iter().collect::<HashSet<_>>().len()
}
