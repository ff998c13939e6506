//! A refusal in words: its number, its condition, the place, and what to do about it.
use crate::part::{Part, Polygon};
use gablemadder::Refusal;
use std::collections::HashSet;
use std::fmt::{self, Display, Formatter};

const MOST_FACES: usize = 1024;

/// A refusal with all that is to be said of it.
#[derive(Clone, Debug, PartialEq)]
pub struct Told {
    pub refusal: Refusal,
    /// Where, where there is such a place, and what stands there.
    pub place: Option<String>,
    pub advice: &'static str,
}

impl Display for Told {
    fn fmt(&self, f: &mut Formatter) -> fmt::Result {
        write!(f, "refused {} ({})", self.refusal.number(), self.refusal.condition())?;
        if let Some(place) = &self.place {
            write!(f, ": {place}")?;
        }
        write!(f, ". {}", self.advice)
    }
}

/// What is to be said of a file that the check refused. The check decides: a place is told only where it is one of this refusal.
pub fn tell(file: &[u8], refusal: Refusal) -> Told {
    let place = match Part::read(file) {
        Err(wrong) => (wrong.refusal == refusal).then_some(wrong.place),
        Ok(part) => match refusal {
            Refusal::FlatPolygon => flat(&part),
            Refusal::TooManyFaces => last_face(&part),
            _ => None,
        },
    };
    Told { refusal, place, advice: advice(file, refusal) }
}

fn advice(file: &[u8], refusal: Refusal) -> &'static str {
    match refusal {
        _ if refusal.number() <= 4 && file.starts_with(b"part ") => {
            "It looks like the text of a part: `gablemadder make` makes the part file from it."
        }
        Refusal::TooManyFaults => "Correct what the part repeats, or check it in pieces.",
        _ => refusal.advice(),
    }
}

/// The first polygon without a plane.
fn flat(part: &Part) -> Option<String> {
    let p = part.polygons.iter().position(|polygon| normal_sum(part.corners(polygon)) < 1e-14)?;
    let corners = part.corners(&part.polygons[p]);
    let twice = (0..corners.len()).find(|&i| corners[i] == corners[(i + 1) % corners.len()]);
    let why = match twice {
        Some(i) => format!("its vertices {i} and {} are the same point", (i + 1) % corners.len()),
        None => "its vertices enclose no area".to_string(),
    };
    Some(format!("{}: {why}", name(p, &part.polygons[p])))
}

/// The length of the normal sum, as the Rust's `Polygon::new` forms it.
fn normal_sum(corners: &[[f64; 3]]) -> f64 {
    let mut n = [0.0; 3];
    for (i, a) in corners.iter().enumerate() {
        let b = corners[(i + 1) % corners.len()];
        n[0] += (a[1] - b[1]) * (a[2] + b[2]);
        n[1] += (a[2] - b[2]) * (a[0] + b[0]);
        n[2] += (a[0] - b[0]) * (a[1] + b[1]);
    }
    crate::range::length_sq(n).sqrt()
}

/// The polygon whose face is one too many.
fn last_face(part: &Part) -> Option<String> {
    let mut seen = HashSet::new();
    let p = part.polygons.iter().position(|polygon| seen.insert(polygon.face) && seen.len() > MOST_FACES)?;
    Some(format!("{} has the first face past {MOST_FACES}", name(p, &part.polygons[p])))
}

fn name(p: usize, polygon: &Polygon) -> String {
    format!("polygon {p} (face {})", polygon.face)
}
