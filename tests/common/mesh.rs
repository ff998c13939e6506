//! The polygons of a part file as a list, to be read, changed and written again.
use crate::field::{real, set_real, set_word, word, Blocks};
use crate::sample;

pub const MOST_VERTICES: usize = 16_384;
pub const MOST_POLYGONS: usize = 4_096;
/// Of one polygon.
pub const MOST_POINTS: usize = 64;

pub type Point = [f64; 3];

#[derive(Clone)]
pub struct Polygon {
    /// The 80 bytes of its entry; where its run begins and how long it is are set when it is written.
    pub entry: Vec<u8>,
    pub points: Vec<Point>,
}

impl Polygon {
    pub fn new(face: (u32, u32), points: Vec<Point>) -> Polygon {
        let mut polygon = Polygon { entry: sample::entry(0, 0, 0, 0), points };
        polygon.set_face(face);
        polygon
    }

    pub fn face(&self) -> (u32, u32) {
        (word(&self.entry, 0), word(&self.entry, 4))
    }

    pub fn set_face(&mut self, (feature, index): (u32, u32)) {
        set_word(&mut self.entry, 0, feature);
        set_word(&mut self.entry, 4, index);
    }
}

#[derive(Clone)]
pub struct Mesh {
    pub polygons: Vec<Polygon>,
    pub job: Vec<u8>,
}

impl Mesh {
    pub fn empty() -> Mesh {
        Mesh { polygons: Vec::new(), job: sample::job(0, 0, b"") }
    }

    pub fn push(&mut self, face: (u32, u32), points: Vec<Point>) {
        self.polygons.push(Polygon::new(face, points));
    }

    /// Of a file that refusals 1 to 7 do not turn back.
    pub fn read(file: &[u8]) -> Mesh {
        let blocks = Blocks::of(file).expect("a file that can be read");
        let polygon = |i: usize| {
            let entry = &file[blocks.entry(i)..][..80];
            let (first, count) = (word(entry, 8) as usize, word(entry, 12) as usize);
            Polygon { entry: entry.to_vec(), points: (first..first + count).map(|v| point(file, v)).collect() }
        };
        Mesh { polygons: (0..blocks.polygons).map(polygon).collect(), job: file[blocks.job()..blocks.trailer()].to_vec() }
    }

    pub fn bytes(&self) -> Vec<u8> {
        let mut file = Vec::new();
        for point in self.points() {
            point.iter().for_each(|c| file.extend(c.to_le_bytes()));
        }
        let mut first = 0;
        for polygon in &self.polygons {
            let at = file.len();
            file.extend(&polygon.entry);
            set_word(&mut file, at + 8, first);
            set_word(&mut file, at + 12, polygon.points.len() as u32);
            first += polygon.points.len() as u32;
        }
        file.extend(&self.job);
        let polygons = self.polygons.len() as u32;
        [1, first, polygons, 80 * polygons + 144].iter().for_each(|n| file.extend(n.to_le_bytes()));
        file
    }

    pub fn points(&self) -> impl Iterator<Item = &Point> {
        self.polygons.iter().flat_map(|p| &p.points)
    }

    pub fn points_mut(&mut self) -> impl Iterator<Item = &mut Point> {
        self.polygons.iter_mut().flat_map(|p| &mut p.points)
    }

    pub fn vertices(&self) -> usize {
        self.polygons.iter().map(|p| p.points.len()).sum()
    }

    /// Of the cylinders of a face.
    pub fn set_radius(&mut self, face: (u32, u32), radius: f64) {
        for polygon in self.polygons.iter_mut().filter(|p| p.face() == face && word(&p.entry, 16) == 1) {
            set_real(&mut polygon.entry, 72, radius);
        }
    }

    /// The whole at so many times its size, the cylinders' axes and radii too.
    pub fn scale(&mut self, by: f64) {
        self.points_mut().flatten().for_each(|c| *c *= by);
        for entry in self.polygons.iter_mut().map(|p| &mut p.entry).filter(|e| word(e, 16) == 1) {
            for at in [24, 32, 40, 72] {
                let scaled = real(entry, at) * by;
                set_real(entry, at, scaled);
            }
        }
    }

    /// Within the counts and the coordinates that document 01 allows.
    pub fn is_allowed(&self) -> bool {
        let counts = self.vertices() <= MOST_VERTICES && self.polygons.len() <= MOST_POLYGONS;
        counts && self.points().all(|p| p.iter().all(|c| c.abs() <= 1e4))
    }
}

/// Vertex v of a file.
pub fn point(file: &[u8], v: usize) -> Point {
    [0, 8, 16].map(|k| f64::from_le_bytes(file[24 * v + k..][..8].try_into().unwrap()))
}
