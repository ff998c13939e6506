//! What the Rust measures of a body: its thickness readings, its rounds, what a ray hits, and what lies next to a face; each list in the Rust's own
//! order.
use crate::dfm;
pub use crate::dfm::seg_distance;
pub use crate::dfm::{Bvh, Hit, Sample};
use crate::math::Vec3;
use crate::solid::{FaceId, Polygon, Solid};

/// All fields of the Rust's own but `coverage`, for which the test stands that it is there for.
pub struct Round {
    pub id: FaceId,
    pub origin: Vec3,
    pub axis: Vec3,
    pub radius: f64,
    pub concave: bool,
    /// dfm.rs `is_hole`.
    pub hole: bool,
    pub length: f64,
    pub centre: Vec3,
}

/// The segments between a face and one next to it.
pub type Segments = Vec<[Vec3; 2]>;

pub struct Measures<'a>(dfm::Part<'a>);

impl Measures<'_> {
    pub fn of(solid: &Solid) -> Measures<'_> {
        Measures(dfm::Part::new(solid))
    }

    pub fn readings(&self) -> Vec<Sample> {
        self.0.thickness_samples()
    }

    pub fn rounds(&self) -> Vec<Round> {
        let round = |r: dfm::Round| {
            let hole = dfm::counts_as_hole(&r);
            let dfm::Round { id, origin, axis, radius, concave, length, centre, .. } = r;
            Round { id, origin, axis, radius, concave, hole, length, centre }
        };
        self.0.rounds().into_iter().map(round).collect()
    }

    pub fn hit(&self, origin: Vec3, dir: Vec3) -> Option<Hit> {
        self.0.bvh.raycast(self.0.body, origin, dir)
    }

    pub fn is_open(&self, p: Vec3, dir: Vec3) -> bool {
        self.0.open_towards(p, dir)
    }

    /// The faces next to this one, each with the segments between.
    pub fn neighbours(&self, id: FaceId) -> Vec<(FaceId, &Segments)> {
        self.0.neighbours(id).collect()
    }

    /// The polygons of a face, in the order of the part.
    pub fn polygons(&self, id: FaceId) -> Vec<&Polygon> {
        let face = self.0.faces.iter().find(|f| f.id == id);
        face.map_or(Vec::new(), |f| f.polys.iter().map(|p| &self.0.body.polygons[*p]).collect())
    }

    /// What `sheet_metal` takes for the thickness at first.
    pub fn rough(&self) -> f64 {
        dfm::weighted_median(self.readings().iter().map(|s| (s.thickness, s.area)).collect())
    }
}
