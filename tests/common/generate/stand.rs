//! Parts that stand on a build plate: pins, thin blocks, leaning walls.
use crate::generate::draw::Draw;
use crate::generate::part::Part;
use crate::generate::ring::{Ring, Side};
use crate::generate::space::{turn, Frame, P, WORLD, X, Y, Z};
use crate::generate::step::thin;

/// A convex outline of planes.
pub fn outline(points: Vec<P>) -> Ring {
    let sides = (0..points.len()).map(|i| Side { index: 2 + i as u32, circle: None }).collect();
    Ring { centre: (0.0, 0.0), points, sides, axis: (0.0, 1.0) }
}

/// The outline as a solid from height z0 up to z1.
pub fn prism(part: &mut Part, frame: &Frame, ring: &Ring, z0: f64, z1: f64, feature: u32) {
    ring.disc(part, frame, z0, (feature, 100), false);
    ring.disc(part, frame, z1, (feature, 101), true);
    ring.wall(part, frame, z0, z1, feature, false);
}

/// The frame in which an outline's second coordinate is the height.
pub const UPRIGHT: Frame = Frame { origin: [0.0; 3], x: X, y: Z, z: [0.0, -1.0, 0.0] };

/// Round pins and tubes, often thin: the same face is hit on the far side.
pub fn pins(d: &mut Draw, part: &mut Part) {
    let count = d.pick(&[1, 1, 2, 3]);
    let alike = d.one_in(2);
    let first = 0.5 * thin(d);
    for k in 0..count {
        let radius = if alike { first } else { 0.5 * thin(d) };
        // An even number of sides has a side across; an odd one has an edge there.
        let facets = d.pick(&[6, 8, 12, 13, 16, 24, 32, 40]);
        let ring = Ring::circle((k as f64 * 5.0, 0.0), radius, facets).with_axis(d);
        let foot = if d.one_in(4) { d.size(0.1, 3.0) } else { 0.0 };
        prism(part, &WORLD, &ring, foot, foot + d.size(0.2, 20.0), 1 + k);
    }
    if d.one_in(3) {
        part.block(50, [-10.0, -10.0, -d.size(0.05, 3.0)], [20.0, 10.0, 0.0]);
    }
    if d.one_in(3) {
        tube(d, part);
    }
}

/// A tube: a hole within a pin.
fn tube(d: &mut Draw, part: &mut Part) {
    let (outer, inner) = (6.0, 6.0 - thin(d).min(3.0));
    let facets = d.pick(&[16, 32, 36]);
    let outside = Ring::circle((0.0, 30.0), outer, facets);
    let inside = Ring::circle((0.0, 30.0), inner, facets);
    let high = d.size(0.5, 20.0);
    outside.wall(part, &WORLD, 0.0, high, 60, false);
    inside.wall(part, &WORLD, 0.0, high, 61, true);
    for i in 0..facets {
        let j = (i + 1) % facets;
        let quad = [outside.points[i], outside.points[j], inside.points[j], inside.points[i]];
        for (z, up) in [(0.0, false), (high, true)] {
            crate::generate::ring::flat(part, &WORLD, quad.to_vec(), z, (62, u32::from(up)), up);
        }
    }
}

/// Blocks with one thin side, apart or stacked.
pub fn thin_blocks(d: &mut Draw, part: &mut Part) {
    for k in 0..d.from(1, 3) as u32 {
        let mut size = [0; 3].map(|_| d.size(1.0, 60.0));
        size[d.below(3)] = thin(d);
        let at = [0.0, 0.0, 70.0 * k as f64];
        part.block(1 + k, at, [size[0], size[1], at[2] + size[2]]);
    }
}

/// Walls that lean by an angle, often that of a common limit or a tenth beside it.
pub fn ramps(d: &mut Draw, part: &mut Part) {
    for k in 0..d.from(1, 3) as u32 {
        let tenths = match d.below(3) {
            0 => d.pick(&[450, 600]) as f64 + d.pick(&[-1.0, 0.0, 0.0, 1.0]),
            1 => d.from(1, 899) as f64,
            _ => d.between(10.0, 890.0),
        };
        let ring = outline(leaning(tenths, d.size(0.5, 20.0), d.size(0.1, 10.0)));
        let frame = Frame { origin: [0.0, 40.0 * k as f64, 0.0], ..UPRIGHT };
        prism(part, &frame, &ring, 0.0, d.size(0.5, 20.0), 1 + k);
    }
}

/// A wall of a length and a width at its foot that leans from vertical by so many tenths of a
/// degree, so that its underside's normal dips by the same angle.
pub fn leaning(tenths: f64, length: f64, foot: f64) -> Vec<P> {
    let (c, s) = turn(tenths / 3600.0);
    let (x, z) = (length * s, length * c);
    vec![(0.0, 0.0), (foot, 0.0), (foot + x, z), (x, z)]
}

/// A block on legs, or a cross hole's bridge: flat undersides.
pub fn tables(d: &mut Draw, part: &mut Part) {
    let (high, wide) = (d.size(1.0, 20.0), d.size(4.0, 40.0));
    part.block(1, [0.0, 0.0, high], [wide, wide, high + thin(d)]);
    for k in 0..d.from(1, 4) as u32 {
        let at = [[0.0, 0.0], [0.75, 0.0], [0.0, 0.75], [0.75, 0.75]][k as usize];
        let (x, y) = (at[0] * wide, at[1] * wide);
        let leg = 0.25 * wide * d.pick(&[1.0, 0.5, 0.1]);
        part.block(2 + k, [x, y, 0.0], [x + leg, y + leg, high]);
    }
}

/// A block bored across, seen along the bore: a hole whose axis lies level.
pub fn cross_bores(d: &mut Draw, part: &mut Part) {
    use crate::generate::plate::{draw_pieces, facets, plate, slab, Cell};
    let radius = d.pick(&[0.25, 0.5, 0.75, 1.0, 2.0, 4.9, 5.0, 5.1, 8.0]);
    let wide = 2.0 * radius + d.size(0.2, 10.0);
    let sides = facets(d);
    let ring = Ring::circle((0.5 * wide, 0.5 * wide), radius, sides).with_axis(d);
    let mut slab = slab(1, 0.0, d.size(0.5, 20.0), draw_pieces(d));
    slab.frame = Frame { origin: [0.0; 3], x: Z, y: X, z: Y };
    plate(part, &slab, &[0.0, wide], &[0.0, wide], &[Cell::Through(ring)]);
}
