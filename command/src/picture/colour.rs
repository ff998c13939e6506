//! Colours: of the part, shaded by how much light falls on it, and of the severities, told apart without red and green too.
use super::vector::{dot, scale, unit, Point};
use gablemadder::Severity;

pub type Colour = [u8; 3];

const PLAIN: Colour = [205, 212, 220];
/// To the right, down, and towards the viewer.
const LIGHT: Point = [-0.4, -0.6, 0.7];
/// As many shades of each colour.
const SHADES: f64 = 80.0;

pub fn of(severity: Severity) -> Colour {
    match severity {
        Severity::Error => [213, 78, 20],
        Severity::Warning => [245, 190, 40],
        Severity::Note => [86, 170, 233],
    }
}

/// For frames and lines that lie on other faces.
pub fn dark(severity: Severity) -> Colour {
    mixed(of(severity), [0, 0, 0], 0.22)
}

/// For lines on faces of the severity itself.
pub fn darkest(severity: Severity) -> Colour {
    mixed(of(severity), [0, 0, 0], 0.55)
}

fn mixed(a: Colour, b: Colour, share: f64) -> Colour {
    [0, 1, 2].map(|i| (f64::from(a[i]) + share * (f64::from(b[i]) - f64::from(a[i]))).round() as u8)
}

/// A face's colour by the worst finding about it, and by its normal in the picture; the inner side is dark.
pub fn shaded(worst: Option<Severity>, normal: Point) -> Colour {
    let inner = normal[2] < 0.0;
    let seen = if inner { scale(normal, -1.0) } else { normal };
    let shade = (0.76 + 0.27 * dot(seen, unit(LIGHT))) * if inner { 0.6 } else { 1.0 };
    // A severity stays recognisable in the shade.
    let shade = if worst.is_some() { 0.4 + 0.6 * shade } else { shade };
    let shade = (shade * SHADES).round() / SHADES;
    worst.map_or(PLAIN, |severity| mixed(of(severity), PLAIN, 0.2)).map(|c| (f64::from(c) * shade).round().min(255.0) as u8)
}

pub fn hex([r, g, b]: Colour) -> String {
    format!("#{r:02x}{g:02x}{b:02x}")
}
