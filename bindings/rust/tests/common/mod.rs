//! Part files for the tests.
#![allow(dead_code)]

pub const CNC: u32 = 0;
pub const SHEET: u32 = 1;
pub const FDM: u32 = 2;
pub const SLS: u32 = 4;

pub type Point = [f64; 3];

/// Planes alone: a face's feature and index, and the vertices.
pub type Polygon = (u32, u32, Vec<Point>);

/// The plate of the scope, 20 by 20 by 0.5 mm, as the examples have it.
pub fn plate() -> Vec<u8> {
    std::fs::read(concat!(env!("CARGO_MANIFEST_DIR"), "/../../examples/plate.part")).unwrap()
}

/// The report of the plate.
pub fn plate_report() -> String {
    std::fs::read_to_string(concat!(env!("CARGO_MANIFEST_DIR"), "/../../examples/plate.report")).unwrap()
}

/// A part file: vertices, polygons, job and trailer.
pub fn part(process: u32, polygons: &[Polygon]) -> Vec<u8> {
    let mut file = Vec::new();
    for point in polygons.iter().flat_map(|polygon| &polygon.2) {
        put_reals(&mut file, point);
    }
    let mut first = 0;
    for (feature, index, points) in polygons {
        put_words(&mut file, &[*feature, *index, first, points.len() as u32, 0, 0]);
        put_reals(&mut file, &[0.0; 7]);
        first += points.len() as u32;
    }
    put_job(&mut file, process);
    let count = polygons.len() as u32;
    put_words(&mut file, &[1, first, count, 80 * count + 144]);
    file
}

/// Up along y, layers of 0.2, walls of 0.8, holes of 2.0, no material.
fn put_job(file: &mut Vec<u8>, process: u32) {
    put_words(file, &[process, 0]);
    put_reals(file, &[0.0, 1.0, 0.0, 0.2, 0.0, 0.8, 2.0]);
    put_words(file, &[0; 4]);
    put_reals(file, &[0.0]);
    file.extend([0; 40]);
}

fn put_words(file: &mut Vec<u8>, words: &[u32]) {
    words.iter().for_each(|word| file.extend(word.to_le_bytes()));
}

fn put_reals(file: &mut Vec<u8>, reals: &[f64]) {
    reals.iter().for_each(|real| file.extend(real.to_le_bytes()));
}

/// A box with a corner at zero: bottom and top (z), then the four sides.
pub fn cuboid(feature: u32, [x, y, z]: Point) -> Vec<Polygon> {
    let faces = [
        [[0.0, 0.0, 0.0], [0.0, y, 0.0], [x, y, 0.0], [x, 0.0, 0.0]],
        [[0.0, 0.0, z], [x, 0.0, z], [x, y, z], [0.0, y, z]],
        [[0.0, 0.0, 0.0], [x, 0.0, 0.0], [x, 0.0, z], [0.0, 0.0, z]],
        [[x, 0.0, 0.0], [x, y, 0.0], [x, y, z], [x, 0.0, z]],
        [[x, y, 0.0], [0.0, y, 0.0], [0.0, y, z], [x, y, z]],
        [[0.0, y, 0.0], [0.0, 0.0, 0.0], [0.0, 0.0, z], [0.0, y, z]],
    ];
    (0..).zip(faces).map(|(index, points)| (feature, index, points.to_vec())).collect()
}

/// Hollows of one triangle each, no two of which touch, each of its own volume: as many findings, and one that the body is not closed.
pub fn hollows(count: usize) -> Vec<u8> {
    let triangle = |k: usize| {
        let [x, y, z] = [3.0 * (k % 64) as f64, 3.0 * (k / 64) as f64, -1.0 - 0.5 * k as f64];
        (8, (k % 1024) as u32, vec![[x, y, z], [x + 2.0, y, z], [x, y + 2.0, z]])
    };
    part(SLS, &(0..count).map(triangle).collect::<Vec<_>>())
}

/// As many vertices and polygons as there may be: of four corners each, in 1,024 faces.
pub fn largest(process: u32) -> Vec<u8> {
    let square = |k: usize| {
        let [x, y] = [2.0 * (k % 64) as f64, 2.0 * (k / 64) as f64];
        (3, (k / 4) as u32, vec![[x, y, 0.0], [x + 1.0, y, 0.0], [x + 1.0, y + 1.0, 0.0], [x, y + 1.0, 0.0]])
    };
    part(process, &(0..4096).map(square).collect::<Vec<_>>())
}
