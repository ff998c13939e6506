//! Closed bodies and what opens them: a polygon missing, one too many, one flipped, bodies glued along an edge, sides shorter than a key, corners a key
//! apart. And how many sides each key has.
use against::counts::{Counts, SMALL};
use against::printing::jobs;
use common::mesh::{Mesh, Point};
use common::random::Random;
use common::shapes::{block, pick, shuffle};
use oracle::faults::DfmReport;
use std::collections::HashMap;

/// What is done to a closed body.
pub const CHANGES: [(&str, fn(&mut Random, &mut Mesh)); 7] = [
    ("a body as it is", |_, _| {}),
    ("a polygon missing", missing),
    ("a polygon too many", too_many),
    ("a polygon flipped", flipped),
    ("bodies glued along an edge", glued),
    ("a side about as short as a key", short_side),
    ("a corner moved by about a key", moved),
];

/// About a key of 1e4 or of 1e5, and half of one.
const STEPS: [f64; 10] = [1e-5, 3e-5, 4e-5, 4.9e-5, 5e-5, 5.1e-5, 6e-5, 1e-4, 4e-6, 6e-6];

/// A block in quads or triangles, whose corners may lie between two keys, with this change; now and then with another one too.
pub fn draw(random: &mut Random, change: fn(&mut Random, &mut Mesh)) -> Mesh {
    let mut mesh = Mesh::empty();
    let low = [0; 3].map(|_| pick(random, &[0.0, 0.0, 0.00005, -0.00005, 0.000005, 12.34565, -9990.0]));
    let size = [0; 3].map(|_| pick(random, &[1.0, 2.5, 10.0, 0.25, 0.001, 0.0003]));
    block(&mut mesh, 1, low, size, random.below(4) == 0);
    match random.below(3) {
        0 => {}
        1 => in_triangles(&mut mesh, |_| true),
        _ => in_triangles(&mut mesh, |k| k % 2 == 0),
    }
    change(random, &mut mesh);
    if random.below(4) == 0 {
        pick(random, &CHANGES).1(random, &mut mesh);
    }
    if random.below(2) == 0 {
        shuffle(random, &mut mesh.polygons);
    }
    mesh.job = jobs::draw(random);
    mesh
}

/// Quads cut along a diagonal, those whose number passes.
fn in_triangles(mesh: &mut Mesh, cut: impl Fn(usize) -> bool) {
    for (k, polygon) in std::mem::take(&mut mesh.polygons).into_iter().enumerate() {
        let p = polygon.points.clone();
        if cut(k) {
            mesh.push(polygon.face(), vec![p[0], p[1], p[2]]);
            mesh.push(polygon.face(), vec![p[0], p[2], p[3]]);
        } else {
            mesh.polygons.push(polygon);
        }
    }
}

fn any(random: &mut Random, mesh: &Mesh) -> usize {
    random.below(mesh.polygons.len() as u64) as usize
}

fn missing(random: &mut Random, mesh: &mut Mesh) {
    if mesh.polygons.len() > 1 {
        mesh.polygons.remove(any(random, mesh));
    }
}

/// One twice, either way round, or a triangle over a side.
fn too_many(random: &mut Random, mesh: &mut Mesh) {
    let mut copy = mesh.polygons[any(random, mesh)].clone();
    match random.below(3) {
        0 => {}
        1 => copy.points.reverse(),
        _ => {
            let [a, b] = [copy.points[0], copy.points[1]];
            copy.points = vec![a, b, [a[0] + 3.0, b[1] - 5.0, a[2] + 7.0]];
        }
    }
    mesh.polygons.push(copy);
}

fn flipped(random: &mut Random, mesh: &mut Mesh) {
    let which = any(random, mesh);
    mesh.polygons[which].points.reverse();
}

/// A second block at an edge of the first's box.
fn glued(random: &mut Random, mesh: &mut Mesh) {
    let axis = random.below(3) as usize;
    let ends = |k: usize| mesh.points().map(|p| p[k]).fold([f64::MAX, f64::MIN], |[lo, hi], c| [lo.min(c), hi.max(c)]);
    let boxed = [0, 1, 2].map(ends);
    let low = [0, 1, 2].map(|k| boxed[k][usize::from(k != axis)]);
    let size = [0, 1, 2].map(|k| boxed[k][1] - boxed[k][0]);
    block(mesh, 2, low, size, random.below(4) == 0);
}

/// A corner more, beside one.
fn short_side(random: &mut Random, mesh: &mut Mesh) {
    let which = any(random, mesh);
    let points = &mut mesh.polygons[which].points;
    let at = random.below(points.len() as u64) as usize;
    let beside = along(points[at], points[(at + 1) % points.len()], pick(random, &STEPS));
    points.insert(at + 1, beside);
}

fn moved(random: &mut Random, mesh: &mut Mesh) {
    let which = any(random, mesh);
    let points = &mut mesh.polygons[which].points;
    let at = random.below(points.len() as u64) as usize;
    points[at][random.below(3) as usize] += pick(random, &STEPS) * pick(random, &[1.0, -1.0]);
}

fn along(from: Point, to: Point, step: f64) -> Point {
    let length = (0..3).map(|k| (to[k] - from[k]) * (to[k] - from[k])).sum::<f64>().sqrt().max(1e-9);
    [0, 1, 2].map(|k| from[k] + (to[k] - from[k]) * step / length)
}

/// Of a key: how many sides have it, and how many more of them run one way than the other.
type Sides = HashMap<[[i64; 3]; 2], (u64, i64)>;

/// The sides by their keys, and how many have none.
fn sides(mesh: &Mesh, scale: f64) -> (Sides, u64) {
    let (mut found, mut dead) = (Sides::new(), 0);
    for polygon in &mesh.polygons {
        let keys: Vec<[i64; 3]> = polygon.points.iter().map(|p| p.map(|c| (c * scale).round() as i64)).collect();
        for (i, a) in keys.iter().enumerate() {
            let b = &keys[(i + 1) % keys.len()];
            if a == b {
                dead += 1;
                continue;
            }
            let side = found.entry([*a.min(b), *a.max(b)]).or_default();
            *side = (side.0 + 1, side.1 + if a < b { 1 } else { -1 });
        }
    }
    (found, dead)
}

/// By the keys, without the oracle: the number in the text is theirs, and what would give another one.
pub fn note(counts: &mut Counts, mesh: &Mesh, report: &DfmReport) {
    if mesh.polygons.is_empty() || mesh.polygons.len() > SMALL {
        return;
    }
    let (keys, dead) = sides(mesh, 1e4);
    let fine = sides(mesh, 1e5).0;
    let with = |n: u64| keys.values().filter(|side| side.0 == n).count();
    let open = with(1);
    let said = report.findings.first().filter(|f| f.rule == "Not closed");
    let text = (open > 0).then(|| format!("The body has {open} open edges; a slicer needs a closed solid to tell inside from outside."));
    assert_eq!(said.map(|f| f.message.clone()), text, "the open keys are not those of the oracle");
    let published = fine.values().filter(|side| side.1 != 0).count();
    let mut add = |what: &str, is: bool| counts.add(what, u64::from(is));
    add("no open key", open == 0);
    add("one open key to three", (1..=3).contains(&open));
    add("more than 9 open keys", open > 9);
    add("a key of three sides", with(3) > 0);
    add("a key of four sides", with(4) > 0);
    add("two sides of a key run the same way", keys.values().any(|side| side.0 == 2 && side.1 != 0));
    add("sides of no key", dead > 0);
    add("another number with keys of 1e5", fine.values().filter(|side| side.0 == 1).count() != open);
    add("no open key, but the published Rust counts some", open == 0 && published > 0);
    add("open keys, but the published Rust counts none", open > 0 && published == 0);
    add("as many open keys as findings", open > 0 && open == report.findings.len());
}
