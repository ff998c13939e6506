//! Blocks with closed hollows, apart, touching, tiny.
use crate::generate::draw::Draw;
use crate::generate::part::Part;
use crate::generate::space::V;

pub fn hollows(d: &mut Draw, part: &mut Part) {
    let size = [0; 3].map(|_| d.size(4.0, 40.0));
    part.block(1, [0.0; 3], size);
    let count = d.pick(&[1, 1, 2, 3, 5, 8]);
    let mut last: Option<(V, V)> = None;
    for k in 0..count {
        let (lo, hi) = match last {
            Some(box_before) if d.one_in(2) => beside_it(d, box_before),
            _ => inside(d, size),
        };
        part.hollow(2 + k, lo, hi);
        last = Some((lo, hi));
    }
    if d.one_in(6) {
        // A block in the hollow: wound outward, a body of its own.
        let (lo, hi) = inside(d, size);
        part.block(90, lo, hi);
    }
}

fn inside(d: &mut Draw, size: V) -> (V, V) {
    if d.one_in(4) {
        return tiny(d);
    }
    let lo = size.map(|s| s * d.pick(&[0.0, 0.1, 0.25, 0.5]));
    let mut hi = lo;
    for axis in 0..3 {
        hi[axis] += (size[axis] - lo[axis]) * d.pick(&[0.1, 0.5, 0.9, 1.0]);
    }
    (lo, hi)
}

/// Sides whose product is about the 1e-9 below which a hollow is none.
fn tiny(d: &mut Draw) -> (V, V) {
    let lo = [0; 3].map(|_| d.pick(&[0.0, 0.0, 0.5, 1.0]));
    let side = d.pick(&[0.001, 0.001, 0.0009, 0.0011, 0.01, 0.1]);
    let third = d.beside(side);
    (lo, [lo[0] + side, lo[1] + side, lo[2] + third])
}

/// A box that touches the one before at a corner, an edge or a face, or just not: bodies join
/// where coordinates times 1e5 round alike, so the gap is about half of 1e-5.
fn beside_it(d: &mut Draw, (lo, hi): (V, V)) -> (V, V) {
    let gap = d.pick(&[0.0, 0.0, 1e-6, 4e-6, 5e-6, 6e-6, 1e-5, 1e-3]);
    let axes = d.from(1, 3);
    let (mut a, mut b) = (lo, hi);
    for axis in 0..axes {
        let length = hi[axis] - lo[axis];
        a[axis] = hi[axis] + gap;
        b[axis] = a[axis] + length;
    }
    (a, b)
}
