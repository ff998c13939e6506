//! The ranges that the numbers of a part file have to lie in.
use std::fmt::{self, Display, Formatter};

#[derive(Clone, Copy, Debug)]
pub struct Range {
    pub low: f64,
    pub high: f64,
}

pub const COORDINATE: Range = Range { low: -1e4, high: 1e4 };
pub const COMPONENT: Range = Range { low: -2.0, high: 2.0 };
/// Of the squared length of a direction.
pub const LENGTH_SQ: Range = Range { low: 0.25, high: 4.0 };
pub const RADIUS: Range = Range { low: 0.001, high: 1e4 };
pub const LAYER: Range = Range { low: 0.001, high: 1e3 };
pub const NOZZLE: Range = Range { low: 0.0, high: 1e3 };
pub const MIN_WALL: Range = Range { low: 0.0, high: 1e4 };
pub const MIN_HOLE: Range = Range { low: 0.0, high: 1e4 };
pub const MATERIAL_MIN_WALL: Range = Range { low: -1e4, high: 1e4 };

/// The overhang limit, in tenths of a degree.
pub const MOST_TENTHS: u32 = 900;
/// The bend ratio, in thousandths.
pub const MOST_THOUSANDTHS: u32 = 100_000;
pub const FEWEST_CORNERS: usize = 3;
pub const MOST_CORNERS: usize = 64;
pub const MOST_NAME: usize = 40;

impl Range {
    pub fn has(self, x: f64) -> bool {
        self.low <= x && x <= self.high
    }
}

impl Display for Range {
    fn fmt(&self, f: &mut Formatter) -> fmt::Result {
        write!(f, "from {} to {}", self.low, self.high)
    }
}

/// Whether a name of a material may have this byte.
pub fn is_name_byte(byte: u8) -> bool {
    (0x20..=0x7e).contains(&byte)
}

/// The Rust's `length_sq`.
pub fn length_sq(v: [f64; 3]) -> f64 {
    v[0] * v[0] + v[1] * v[1] + v[2] * v[2]
}
