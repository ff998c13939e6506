//! Parts that hang on one number, and the two neighbouring f64 of it between which the Rust's answer changes: so a limit is met as the Rust's own
//! roundings have it, wherever the part stands.
use crate::frame::{Files, Rules};
use common::ids::Id;
use common::mesh::Mesh;
use oracle::faults::Finding;

pub struct Dial {
    /// Both above 0.
    ends: [f64; 2],
    part: Box<dyn Fn(f64) -> Mesh>,
}

/// What of an answer changes only at a limit: all but the numbers in its texts.
pub trait Found: PartialEq + Sized {
    /// None of a part that is refused.
    fn of(mesh: &Mesh) -> Option<Self>;

    /// What it is that changes from this to the other.
    fn change(&self, other: &Self) -> String;
}

impl Dial {
    pub fn new(ends: [f64; 2], part: impl Fn(f64) -> Mesh + 'static) -> Dial {
        Dial { ends, part: Box::new(part) }
    }

    /// The same done to the part of each number.
    pub fn then(self, change: impl Fn(&mut Mesh) + 'static) -> Dial {
        Dial::new(self.ends, move |x| {
            let mut mesh = (self.part)(x);
            change(&mut mesh);
            mesh
        })
    }

    /// The parts at the two numbers of a change and one f64 past each; or those at the ends where there is none.
    fn parts<F: Found>(&self) -> (Option<String>, Vec<Mesh>) {
        let part = |bits: u64| (self.part)(f64::from_bits(bits));
        let [mut a, mut b] = self.ends.map(f64::to_bits);
        let (low, mut high) = (F::of(&part(a)), F::of(&part(b)));
        if low == high {
            return (None, vec![part(a), part(b)]);
        }
        while b - a > 1 {
            let middle = a + (b - a) / 2;
            let found = F::of(&part(middle));
            if found == low {
                a = middle;
            } else {
                (b, high) = (middle, found);
            }
        }
        let change = low.zip(high).map(|(low, high)| low.change(&high));
        (change, [a - 1, a, b, b + 1].map(part).to_vec())
    }

    /// Compares them, and counts the change.
    pub fn check<R: Rules, F: Found>(&self, c: &mut Files<R>, number: u64) {
        let (change, parts) = self.parts::<F>();
        if let Some(what) = change {
            c.counts.add(&what, 1);
        }
        for (k, mesh) in parts.iter().enumerate() {
            c.check(&mesh.bytes(), || format!("dial {number}, part {k}"));
        }
    }
}

pub fn ids(finding: &Finding) -> Vec<Id> {
    finding.faces.iter().map(|id| (id.feature, id.index)).collect()
}
