//! Parts to time, each with a name: plates and brackets with holes and bends, and covers with slots, of about 200, 800, 3,200 and 4,000 polygons. A slot has
//! eight faces where a hole has one, so that a cover has the most edges between faces.
use common::generate::file;
use common::generate::job::{Job, Material, SHEET};
use common::generate::part::Part;
use common::generate::plate::{cuts, Cell};
use common::generate::ring::Ring;
use common::generate::sheet::{Run, Strip};

const THICK: f64 = 2.0;
const WIDTH: f64 = 12.0;

/// A strip through so many bends, its flat pieces so many cells wide, of which some have a hole.
struct Plan {
    bends: usize,
    cells: usize,
    holes: usize,
    slots: bool,
}

impl Plan {
    fn file(&self) -> Vec<u8> {
        let mut runs = vec![Run::Straight(WIDTH)];
        for k in 0..self.bends {
            runs.push(Run::Bend(1.5, 0.25, 4, k % 2 == 0));
            // the last flange is short
            runs.push(Run::Straight(if k + 1 == self.bends { 3.0 * THICK } else { WIDTH }));
        }
        let (mut part, mut left) = (Part::default(), self.holes);
        let zs = cuts(&vec![WIDTH; self.cells]);
        Strip::new(&runs, THICK, THICK).build(&mut part, &zs, 8, &mut |_, _, length, _| {
            if length == 0.0 || left == 0 {
                return Cell::Plain;
            }
            left -= 1;
            if self.slots {
                return Cell::Through(Ring::rounded([3.0, 4.0, 9.0, 8.0], 0.8, 2));
            }
            let (x, radius) = [(6.0, 0.9), (4.0, 1.5), (6.0, 2.0)][left % 3];
            Cell::Through(Ring::circle((x, 6.0), radius, 32))
        });
        let material = Some(Material { class: 0, min_wall: 1.0, bend_ratio: Some(1000), name: b"Stainless 304".to_vec() });
        file::bytes(&part, &Job { material, ..Job::defaults(SHEET) })
    }
}

pub fn all() -> Vec<(String, Vec<u8>)> {
    let plans = [
        ("a plate with 4 holes", Plan { bends: 0, cells: 4, holes: 4, slots: false }),
        ("a bracket of 2 bends with 3 holes", Plan { bends: 2, cells: 3, holes: 3, slots: false }),
        ("a plate with 16 holes", Plan { bends: 0, cells: 16, holes: 16, slots: false }),
        ("a bracket of 4 bends with 10 holes", Plan { bends: 4, cells: 6, holes: 10, slots: false }),
        ("a plate with 64 holes", Plan { bends: 0, cells: 64, holes: 64, slots: false }),
        ("a bracket of 6 bends with 40 holes", Plan { bends: 6, cells: 20, holes: 40, slots: false }),
        ("a bracket of 6 bends with 8 holes", Plan { bends: 6, cells: 56, holes: 8, slots: false }),
        ("a cover of 1 bend with 5 slots", Plan { bends: 1, cells: 5, holes: 5, slots: true }),
        ("a cover of 2 bends with 20 slots", Plan { bends: 2, cells: 10, holes: 20, slots: true }),
        ("a cover of 2 bends with 82 slots", Plan { bends: 2, cells: 41, holes: 82, slots: true }),
    ];
    plans.iter().map(|(name, plan)| (name.to_string(), plan.file())).collect()
}
