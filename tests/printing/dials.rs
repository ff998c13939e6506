//! Parts of printing that hang on one number: where up points, how large the part is, how far a piece of it stands off.
use against::arrange;
use against::dial::{self, Dial};
use against::printing::jobs;
use common::ids::Id;
use common::mesh::Mesh;
use common::random::Random;
use common::shapes::pick;
use oracle::faults::{Part, Severity};

#[derive(PartialEq)]
pub struct Found(Vec<(&'static str, Severity, Vec<Id>)>);

impl dial::Found for Found {
    fn of(mesh: &Mesh) -> Option<Found> {
        let report = Part::read(&mesh.bytes()).ok()?.report(jobs::process(&mesh.job));
        Some(Found(report.findings.iter().map(|f| (f.rule, f.severity, dial::ids(f))).collect()))
    }

    /// The first rule of which they say something else.
    fn change(&self, other: &Found) -> String {
        let of = |found: &Found, rule: &str| found.0.iter().filter(|f| f.0 == rule).cloned().collect::<Vec<_>>();
        let rules =
            ["Overhang", "Enclosed hollow", "Small hole", "Thinner than a layer", "Few layers", "Thinner than the nozzle", "Thin wall", "Not closed"];
        let changed = rules.into_iter().find(|rule| of(self, rule) != of(other, rule));
        format!("change of {}", changed.expect("a rule of printing"))
    }
}

/// A part to turn, to scale or to pull apart, which need not be small in what it has.
pub fn draw(random: &mut Random, mesh: Mesh) -> Dial {
    let seed = random.next();
    let dial = match random.below(4) {
        0 | 1 => turned(random, mesh),
        2 => scaled(mesh),
        _ => raised(random, mesh),
    };
    dial.then(move |mesh| arrange::ordered(&mut Random(seed), mesh))
}

/// One component of up.
fn turned(random: &mut Random, mesh: Mesh) -> Dial {
    let (axis, sign) = (random.below(3) as usize, pick(random, &[1.0, -1.0]));
    let others = [0; 3].map(|_| pick(random, &[0.0, 0.5, -0.6, 0.7, -0.8, 1.0]));
    let others = if (0..3).all(|k| k == axis || others[k] == 0.0) { [0.6; 3] } else { others };
    Dial::new([1e-6, 1.4], move |x| {
        let mut copy = mesh.clone();
        jobs::change(&mut copy.job, |print| {
            print.up = others;
            print.up[axis] = sign * x;
        });
        copy
    })
}

/// The whole.
fn scaled(mesh: Mesh) -> Dial {
    Dial::new([1e-3, 20.0], move |x| {
        let mut copy = mesh.clone();
        copy.scale(x);
        copy
    })
}

/// All polygons of a feature along an axis.
fn raised(random: &mut Random, mesh: Mesh) -> Dial {
    let (axis, sign) = (random.below(3) as usize, pick(random, &[1.0, -1.0]));
    let any = random.below(mesh.polygons.len().max(1) as u64) as usize;
    let feature = mesh.polygons.get(any).map(|p| p.face().0);
    let most = pick(random, &[1e-3, 1.0, 20.0]);
    Dial::new([1e-8, most], move |x| {
        let mut copy = mesh.clone();
        for polygon in copy.polygons.iter_mut().filter(|p| Some(p.face().0) == feature) {
            polygon.points.iter_mut().for_each(|p| p[axis] += sign * x);
        }
        copy
    })
}
