//! Writes the numbers of thickness readings, as the library has them, for tests/accuracy/errors.py: of generated files from standard input, of parts of its
//! own, of large ones and of slanted ones; with --quick fewer. Of each polygon's ray that strikes something there is a record of 96 bytes: 1 where the check
//! keeps the reading, else 0 (u64), then the struck polygon's normal and w, the ray's start and direction, and the reading, t + 1e-6 (f64), all
//! little-endian. What is kept is held to the check's own list of readings, bit by bit.
mod slants;

use common::field::Blocks;
use common::gablemadder;
use common::mesh::{Mesh, Point};
use common::polygon::{centroid, plane};
use common::random::Random;
use common::vector::{plus, times};
use common::{large, shapes, stream, walls};
use std::io::{self, BufWriter, Write};

fn main() -> io::Result<()> {
    let quick = std::env::args().any(|a| a == "--quick");
    let (own, slanted) = if quick { (300, 3_000) } else { (4_000, 60_000) };
    let mut out = Records { out: BufWriter::new(io::stdout().lock()), wrong: 0 };
    stream::each(|_, file| out.put(file))?;
    let mut random = Random(21);
    for _ in 0..own {
        let mesh = if random.below(4) == 0 { shapes::draw(&mut random) } else { walls::draw(&mut random) };
        out.put(&mesh.bytes());
    }
    for (_, mesh) in large::for_rays().into_iter().chain(large::for_readings()) {
        // at its size, and moved and enlarged to the end of the range
        out.put(&mesh.bytes());
        out.put(&to_the_end(mesh).bytes());
    }
    for number in 0..slanted {
        out.put(&slants::draw(&mut Random::of(22, number)).bytes());
    }
    out.out.flush()?;
    if out.wrong > 0 {
        eprintln!("accuracy: {} parts whose readings are not those of their rays", out.wrong);
    }
    std::process::exit(i32::from(out.wrong > 0));
}

fn to_the_end(mut mesh: Mesh) -> Mesh {
    let most = mesh.points().flatten().fold(0.0f64, |m, c| m.max(c.abs()));
    mesh.scale(9000.0 / most);
    mesh.points_mut().flatten().for_each(|c| *c += 999.5);
    mesh
}

struct Records<W: Write> {
    out: W,
    wrong: u64,
}

impl<W: Write> Records<W> {
    /// Nothing for a file that is refused.
    fn put(&mut self, file: &[u8]) {
        let Some(blocks) = Blocks::of(file) else { return };
        let Some(readings) = readings(file, &blocks) else { return };
        let mesh = Mesh::read(file);
        let planes: Vec<(Point, f64)> = mesh.polygons.iter().map(plane).collect();
        let rays: Vec<[Point; 2]> = mesh.polygons.iter().zip(&planes).map(|(p, (normal, _))| ray(&p.points, *normal)).collect();
        let hits = hits(file, &blocks, &rays);
        let mut left = readings;
        for (p, (hit, [start, dir])) in hits.iter().zip(&rays).enumerate() {
            let Some((q, t)) = hit else { continue };
            let thickness = t + 1e-6;
            let key = (centroid(&mesh.polygons[p].points).map(f64::to_bits), planes[p].0.map(f64::to_bits), thickness.to_bits());
            let kept = left.iter().position(|r| *r == key).map(|at| left.swap_remove(at)).is_some();
            let (normal, w) = planes[*q];
            self.out.write_all(&u64::from(kept).to_le_bytes()).expect("a place for records");
            let numbers = normal.iter().chain([&w]).chain(start).chain(dir).chain([&thickness]);
            numbers.for_each(|x| self.out.write_all(&x.to_le_bytes()).expect("a place for records"));
        }
        // every reading is that of some polygon's ray
        self.wrong += u64::from(!left.is_empty());
    }
}

/// From the centroid, 1e-6 inward.
fn ray(points: &[Point], normal: Point) -> [Point; 2] {
    let dir = times(normal, -1.0);
    [plus(centroid(points), times(dir, 1e-6)), dir]
}

/// The centroid, the normal and the thickness of a reading.
type Reading = ([u64; 3], [u64; 3], u64);

/// None for a file that is refused.
fn readings(file: &[u8], blocks: &Blocks) -> Option<Vec<Reading>> {
    let (mut words, mut reals) = lent(blocks);
    let (mut faces, mut numbers) = (vec![0; 2 * blocks.polygons + 1], vec![0.0; 8 * blocks.polygons]);
    if gablemadder::sample_list(file, &mut words, &mut reals, &mut faces, &mut numbers) != 0 {
        return None;
    }
    let reading = |r: &[f64]| ([r[2], r[3], r[4]].map(f64::to_bits), [r[5], r[6], r[7]].map(f64::to_bits), r[0].to_bits());
    Some(numbers.chunks(8).take(faces[0] as usize).map(reading).collect())
}

/// The polygon that each ray strikes, and t.
fn hits(file: &[u8], blocks: &Blocks, rays: &[[Point; 2]]) -> Vec<Option<(usize, f64)>> {
    let (mut words, mut reals) = lent(blocks);
    let (mut polygons, mut times) = (vec![0; rays.len()], vec![0.0; rays.len()]);
    let answer = gablemadder::raycast(file, &mut words, &mut reals, &rays.concat().concat(), &mut polygons, &mut times);
    assert_eq!(answer, 0, "the rays of a part that is not refused");
    polygons.iter().zip(&times).map(|(q, t)| ((*q as usize) < rays.len()).then_some((*q as usize, *t))).collect()
}

fn lent(blocks: &Blocks) -> (Vec<u32>, Vec<f64>) {
    let (p, v) = (blocks.polygons, blocks.vertices);
    (vec![0; 12 * p + 8 * v + 1024], vec![0.0; 24 * p + 8 * v + 2048])
}
