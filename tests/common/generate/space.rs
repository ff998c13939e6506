//! Turns and frames.
use crate::generate::draw::Draw;
use crate::vector::{cross, dot, plus, times, Vector};

pub type V = Vector;
/// A point of a plane drawing.
pub type P = (f64, f64);

pub const X: V = [1.0, 0.0, 0.0];
pub const Y: V = [0.0, 1.0, 0.0];
pub const Z: V = [0.0, 0.0, 1.0];

/// Cosine and sine of a share of a full turn, by their series: the platform's own may differ.
pub fn turn(share: f64) -> (f64, f64) {
    let quarters = (share * 4.0).round();
    let x = (share - quarters / 4.0) * std::f64::consts::TAU;
    let (mut c, mut s, mut term) = (0.0, 0.0, 1.0);
    for k in 0..10 {
        let n = (2 * k) as f64;
        c += term;
        s += term * x / (n + 1.0);
        term *= -x * x / ((n + 1.0) * (n + 2.0));
    }
    match quarters.rem_euclid(4.0) as u32 {
        0 => (c, s),
        1 => (-s, c),
        2 => (-c, -s),
        _ => (s, -c),
    }
}

/// Where a shape's own axes lie in space; right-handed.
#[derive(Clone, Copy)]
pub struct Frame {
    pub origin: V,
    pub x: V,
    pub y: V,
    pub z: V,
}

pub const WORLD: Frame = Frame { origin: [0.0; 3], x: X, y: Y, z: Z };

impl Frame {
    pub fn direction(&self, v: V) -> V {
        plus(plus(times(self.x, v[0]), times(self.y, v[1])), times(self.z, v[2]))
    }

    pub fn point(&self, v: V) -> V {
        plus(self.origin, self.direction(v))
    }

    /// The frame of a finished part: as drawn, in exact quarter turns, or any.
    pub fn draw(d: &mut Draw) -> Frame {
        match d.below(3) {
            0 => WORLD,
            1 => Frame::quarter_turns(d),
            _ => Frame::any(d),
        }
    }

    fn quarter_turns(d: &mut Draw) -> Frame {
        let axes = [X, Y, Z];
        let order = d.order(3);
        let x = times(axes[order[0]], d.pick(&[1.0, -1.0]));
        let y = times(axes[order[1]], d.pick(&[1.0, -1.0]));
        let origin = [0; 3].map(|_| d.between(-400.0, 400.0).round() / 4.0);
        Frame { origin, x, y, z: cross(x, y) }
    }

    /// A turn by a unit quaternion.
    fn any(d: &mut Draw) -> Frame {
        let q = loop {
            let q = [0; 4].map(|_| d.between(-1.0, 1.0));
            let square: f64 = q.iter().map(|c| c * c).sum();
            if (0.01..=1.0).contains(&square) {
                break q.map(|c| c / square.sqrt());
            }
        };
        let [w, i, j, k] = q;
        let reach = d.pick(&[1.0, 50.0, 500.0, 8000.0]);
        Frame {
            origin: [0; 3].map(|_| d.between(-reach, reach)),
            x: [1.0 - 2.0 * (j * j + k * k), 2.0 * (i * j + k * w), 2.0 * (i * k - j * w)],
            y: [2.0 * (i * j - k * w), 1.0 - 2.0 * (i * i + k * k), 2.0 * (j * k + i * w)],
            z: [2.0 * (i * k + j * w), 2.0 * (j * k - i * w), 1.0 - 2.0 * (i * i + j * j)],
        }
    }
}

/// A turned direction may leave the allowed lengths by a rounding: brought back in.
pub fn allowed_direction(v: V) -> V {
    let square = dot(v, v);
    if (0.25..=4.0).contains(&square) && v.iter().all(|c| c.abs() <= 2.0) {
        return v;
    }
    times(v, 1.0 / square.sqrt())
}
