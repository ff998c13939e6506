//! Where the numbers of the findings stand: on a face, where it is seen and has room, or beside the part with a line to the face.
use super::hidden::Cover;
use super::mesh::Mesh;
use super::notes::{Flags, Note};
use super::raster::Raster;
use super::vector::{length, mean, normal};
use super::view::Canvas;
use gablemadder::Severity;

pub const HEIGHT: f64 = 18.0;
/// More tags would cover the part.
const MOST: usize = 150;
/// How far beside its face a tag may stand, in pixels.
const REACHES: [f64; 11] = [22.0, 28.0, 36.0, 46.0, 58.0, 72.0, 88.0, 106.0, 130.0, 160.0, 200.0];

pub struct Tag {
    /// Its middle.
    pub at: [f64; 2],
    /// The place on the face that a line leads to, where the tag itself does not stand on it.
    pub foot: Option<[f64; 2]>,
    pub text: String,
    pub severity: Severity,
    pub is_behind: bool,
}

impl Tag {
    pub fn width(&self) -> f64 {
        (8.0 * self.text.chars().count() as f64 + 10.0).max(HEIGHT)
    }

    fn meets(&self, other: &Tag) -> bool {
        let (x, y) = ((self.at[0] - other.at[0]).abs(), (self.at[1] - other.at[1]).abs());
        x < 0.5 * (self.width() + other.width()) + 3.0 && y < HEIGHT + 3.0
    }
}

/// What is seen of the faces.
pub struct Sight {
    raster: Raster,
    /// Room about each cell, in cells.
    rooms: Vec<u32>,
    /// The cells of each face.
    cells: Vec<Vec<usize>>,
    /// A place of each face that is seen, though it has no cell.
    points: Vec<Option<[f64; 2]>>,
    /// A place of each face, seen or not.
    middles: Vec<Option<[f64; 2]>>,
}

impl Sight {
    /// The raster has all that is seen painted already.
    pub fn new(mesh: &Mesh, canvas: &Canvas, raster: Raster, cover: &Cover) -> Sight {
        let faces = mesh.faces.len();
        let mut cells = vec![vec![]; faces];
        for (i, face) in raster.faces.iter().enumerate() {
            if let Some(face) = *face {
                cells[face].push(i);
            }
        }
        let (mut points, mut middles, mut largest) = (vec![None; faces], vec![None; faces], vec![0.0; faces]);
        for facet in &mesh.facets {
            let (face, normal) = (facet.face, normal(&facet.corners));
            let middle = canvas.place(mean(&facet.corners));
            let at = [middle[0], middle[1]];
            if length(normal) > largest[face] {
                (largest[face], middles[face]) = (length(normal), Some(at));
            }
            let is_turned = !mesh.is_solid || canvas.turn(normal)[2] > 0.0;
            if is_turned && cells[face].is_empty() && points[face].is_none() && cover.sees(middle) {
                points[face] = Some(at);
            }
        }
        Sight { rooms: raster.rooms(), raster, cells, points, middles }
    }

    pub fn sees(&self, face: usize) -> bool {
        !self.cells[face].is_empty() || self.points[face].is_some()
    }

    /// The place on the face with the most room where a tag meets no other; and whether the room holds a tag.
    fn spot(&self, face: usize, tag: &Tag, tags: &[Tag]) -> Option<([f64; 2], bool)> {
        let mut best: Option<(u32, usize)> = None;
        for &i in &self.cells[face] {
            let room = self.rooms[i];
            if best.is_none_or(|(most, _)| room > most) && !tags.iter().any(|t| t.meets(&at(tag, self.raster.middle(i)))) {
                best = Some((room, i));
            }
        }
        let (room, i) = best?;
        Some((self.raster.middle(i), f64::from(room) * self.raster.cell >= 0.5 * tag.width() + 2.0))
    }

    /// A place of the face that is seen, with the most room.
    fn foot(&self, face: usize) -> Option<[f64; 2]> {
        let best = self.cells[face].iter().max_by_key(|&&i| (self.rooms[i], std::cmp::Reverse(i)));
        best.map(|&i| self.raster.middle(i)).or(self.points[face])
    }

    /// How little a tag is wanted at a place: it should cover nothing of the part, and least of all flagged faces. None where it cannot stand.
    fn cost(&self, tag: &Tag, flags: &Flags, tags: &[Tag]) -> Option<f64> {
        let (w, h) = (0.5 * tag.width() + 1.0, 0.5 * HEIGHT + 1.0);
        let mut cost = 0.0;
        for (x, y) in [(0.0, 0.0), (-w, -h), (w, -h), (w, h), (-w, h)] {
            let cell = self.raster.at([tag.at[0] + x, tag.at[1] + y])?;
            cost += match self.raster.faces[cell] {
                None => 0.0,
                Some(face) if flags.worst(face).is_none() => 10.0,
                Some(_) => 25.0,
            };
        }
        (!tags.iter().any(|t| t.meets(tag))).then_some(cost)
    }
}

fn at(tag: &Tag, at: [f64; 2]) -> Tag {
    Tag { at, foot: None, text: tag.text.clone(), ..*tag }
}

/// Sixteen directions, by the square roots that make their sines.
fn directions() -> Vec<[f64; 2]> {
    let half = 0.5f64.sqrt();
    let (long, short) = ((0.5 * (1.0 + half)).sqrt(), (0.5 * (1.0 - half)).sqrt());
    let quarter = [[1.0, 0.0], [long, short], [half, half], [short, long]];
    let turns = [[1.0, 0.0], [0.0, 1.0], [-1.0, 0.0], [0.0, -1.0]];
    turns.iter().flat_map(|t| quarter.map(|q| [q[0] * t[0] - q[1] * t[1], q[0] * t[1] + q[1] * t[0]])).collect()
}

/// The tags: first one for each finding, on the face of which most is seen, then those for which there is room on their faces.
pub fn placed(notes: &[Note], flags: &Flags, sight: &Sight) -> Vec<Tag> {
    let mut tags: Vec<Tag> = vec![];
    let mut told = vec![false; notes.len() + 1];
    let mut tagged = vec![false; sight.cells.len()];
    for note in notes {
        let most = note.faces.iter().copied().filter(|&f| sight.sees(f)).max_by_key(|&f| (sight.cells[f].len(), std::cmp::Reverse(f)));
        let face = most.or(note.faces.first().copied());
        let Some(face) = face.filter(|&f| !told[note.number] && !tagged[f] && tags.len() < MOST) else {
            continue;
        };
        if let Some(tag) = first_tag(face, flags, sight, &tags) {
            flags.numbers(face).iter().for_each(|&number| told[number] = true);
            tagged[face] = true;
            tags.push(tag);
        }
    }
    for face in notes.iter().flat_map(|note| note.faces.iter().copied()) {
        let tag = new_tag(face, flags);
        let spot = if tagged[face] || tags.len() >= MOST { None } else { sight.spot(face, &tag, &tags) };
        if let Some((middle, true)) = spot {
            tagged[face] = true;
            tags.push(at(&tag, middle));
        }
    }
    tags
}

fn new_tag(face: usize, flags: &Flags) -> Tag {
    let severity = flags.worst(face).unwrap_or(Severity::Note);
    Tag { at: [0.0; 2], foot: None, text: flags.text(face), severity, is_behind: false }
}

/// On the face, or beside it, or for a hidden face where that lies behind.
fn first_tag(face: usize, flags: &Flags, sight: &Sight, tags: &[Tag]) -> Option<Tag> {
    let mut tag = new_tag(face, flags);
    if !sight.sees(face) {
        tag.is_behind = true;
        let middle = sight.middles[face]?;
        let free = at(&tag, middle);
        return if tags.iter().any(|t| t.meets(&free)) { beside(tag, middle, flags, sight, tags) } else { Some(free) };
    }
    match sight.spot(face, &tag, tags) {
        Some((middle, true)) => Some(at(&tag, middle)),
        _ => beside(tag, sight.foot(face)?, flags, sight, tags),
    }
}

fn beside(tag: Tag, foot: [f64; 2], flags: &Flags, sight: &Sight, tags: &[Tag]) -> Option<Tag> {
    let mut best: Option<(f64, Tag)> = None;
    for reach in REACHES {
        for [x, y] in directions() {
            let mut next = at(&tag, [foot[0] + reach * x, foot[1] + reach * y]);
            next.foot = Some(foot);
            if let Some(cost) = sight.cost(&next, flags, tags).map(|cost| cost + reach) {
                if best.as_ref().is_none_or(|(least, _)| cost < *least) {
                    best = Some((cost, next));
                }
            }
        }
    }
    best.map(|(_, tag)| tag)
}
