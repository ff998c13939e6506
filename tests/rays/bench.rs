//! Times of a ray, of the readings and of building the tree of boxes beside the Rust's: as published, whose rays go down a tree of boxes, and with the
//! replacements, whose rays try every polygon. Ours begin at the file's bytes, the Rust's at the part it has read already: so the time of a call that casts
//! no ray, or that is lent nothing for the tree, is taken off ours, and stands beside. Each time is the best of many, taken in turn in one run.
use common::best::best_of;
use common::mesh::Mesh;
use common::{gablemadder, large};
use std::hint::black_box;

/// At about 4,000 polygons a ray is to take at most this many times the time of the Rust's in its tree, and building the tree.
const MOST: [f64; 2] = [0.5, 1.0];
const ROUNDS: usize = 20;
/// In one call, so that the planes' share is small.
const RAYS: usize = 1000;

struct Subject {
    name: String,
    file: Vec<u8>,
    polygons: usize,
    words: Vec<u32>,
    reals: Vec<f64>,
    patched: oracle::solid::Solid,
    published: published::solid::Solid,
}

impl Subject {
    fn new((name, mesh): (String, Mesh)) -> Subject {
        let (file, polygons, vertices) = (mesh.bytes(), mesh.polygons.len(), mesh.vertices());
        let (patched, published) = (oracle::body(&file).expect("an accepted file"), published::body(&file).expect("an accepted file"));
        let (words, reals) = (vec![0; 12 * polygons + 8 * vertices + 1024], vec![0.0; 24 * polygons + 8 * vertices + 2048]);
        Subject { name, file, polygons, words, reals, patched, published }
    }

    /// From the middle of each of so many polygons inward, as the readings are taken.
    fn rays(&self) -> Vec<f64> {
        let n = self.patched.polygons.len();
        let ray = |k: usize| {
            let p = &self.patched.polygons[k * n / RAYS];
            let middle = p.verts.iter().fold(oracle::math::Vec3::ZERO, |sum, v| sum + *v) * (1.0 / p.verts.len() as f64);
            let (dir, start) = (p.normal * -1.0, middle + p.normal * -1e-6);
            [start.x, start.y, start.z, dir.x, dir.y, dir.z]
        };
        (0..RAYS).flat_map(ray).collect()
    }

    /// The ratio to the Rust's, of its tree as published.
    fn time_building(&self) -> f64 {
        let (mut words, mut reals) = (self.words.clone(), self.reals.clone());
        assert_eq!(gablemadder::put_tree(&self.file, &mut words, &mut reals), 0);
        assert_eq!(gablemadder::put_tree(&self.file, &mut [], &mut []), 10);
        let [all, judging, published] = best_of(
            ROUNDS,
            1,
            [
                &mut || {
                    black_box(gablemadder::put_tree(black_box(&self.file), &mut words, &mut reals));
                },
                &mut || {
                    black_box(gablemadder::put_tree(black_box(&self.file), &mut [], &mut []));
                },
                &mut || drop(black_box(published::measures::Bvh::new(black_box(&self.published)))),
            ],
        )
        .map(|t| t / 1e3);
        let (name, ours) = (&self.name, all - judging);
        println!("the tree, {name}: {ours:.1} µs after {judging:.1} µs for judging the file; the Rust's {published:.1} µs: {:.2} times its time", ours / published);
        ours / published
    }

    /// Both ratios of what takes so long of n steps, after a call that casts no ray.
    fn time(&self, what: &str, n: usize, ours: &mut dyn FnMut(), patched: &mut dyn FnMut(), published: &mut dyn FnMut()) -> [f64; 2] {
        let (mut words, mut reals) = (self.words.clone(), self.reals.clone());
        let mut none = || {
            black_box(gablemadder::raycast(black_box(&self.file), &mut words, &mut reals, &[], &mut [], &mut []));
        };
        let [ours, body, patched, published] = best_of(ROUNDS, n, [ours, &mut none, patched, published]).map(|t| t / 1e3);
        let (name, least, body) = (&self.name, ours - body, body * n as f64 / 1e3);
        let ratios = [least / patched, least / published];
        println!(
            "{what}, {name}: {least:.2} µs after {body:.2} ms for the body; the Rust's {patched:.2} µs with every polygon tried, {published:.2} µs in its \
             tree: {:.2} and {:.2} times theirs",
            ratios[0], ratios[1]
        );
        ratios
    }

    fn time_rays(&self) -> [f64; 2] {
        let measures = oracle::measures::Measures::of(&self.patched);
        let tree = published::measures::Measures::of(&self.published);
        let rays = self.rays();
        let (mut words, mut reals) = (self.words.clone(), self.reals.clone());
        let (mut polygons, mut times) = (vec![0; RAYS], vec![0.0; RAYS]);
        let hit = |ray: &[f64]| measures.hit(oracle::math::v3(ray[0], ray[1], ray[2]), oracle::math::v3(ray[3], ray[4], ray[5]));
        let found = |ray: &[f64]| tree.hit(published::math::v3(ray[0], ray[1], ray[2]), published::math::v3(ray[3], ray[4], ray[5]));
        assert_eq!(gablemadder::raycast(&self.file, &mut words, &mut reals, &rays, &mut polygons, &mut times), 0);
        let theirs = rays.chunks(6).map(|ray| hit(ray).map_or(0.0, |h| h.t));
        assert!(times.iter().copied().eq(theirs), "{}: the times of the hits", self.name);
        self.time(
            "a ray",
            RAYS,
            &mut || {
                black_box(gablemadder::raycast(black_box(&self.file), &mut words, &mut reals, &rays, &mut polygons, &mut times));
            },
            &mut || rays.chunks(6).for_each(|ray| drop(black_box(hit(black_box(ray))))),
            &mut || rays.chunks(6).for_each(|ray| drop(black_box(found(black_box(ray))))),
        )
    }

    fn time_readings(&self) -> [f64; 2] {
        let measures = oracle::measures::Measures::of(&self.patched);
        let tree = published::measures::Measures::of(&self.published);
        let (mut words, mut reals) = (self.words.clone(), self.reals.clone());
        let (mut faces, mut numbers) = (vec![0; 2 * self.polygons + 1], vec![0.0; 8 * self.polygons]);
        assert_eq!(gablemadder::sample_list(&self.file, &mut words, &mut reals, &mut faces, &mut numbers), 0);
        assert_eq!(faces[0] as usize, measures.readings().len(), "{}: the number of readings", self.name);
        self.time(
            "readings",
            1,
            &mut || {
                black_box(gablemadder::sample_list(black_box(&self.file), &mut words, &mut reals, &mut faces, &mut numbers));
            },
            &mut || drop(black_box(black_box(&measures).readings())),
            &mut || drop(black_box(black_box(&tree).readings())),
        )
    }
}

fn main() {
    let subjects = |list: Vec<(String, Mesh)>| list.into_iter().map(Subject::new);
    let most = |list: Vec<[f64; 2]>| [0, 1].map(|k| list.iter().map(|r| r[k]).fold(0.0, f64::max));
    let [_, few] = most(subjects(large::by_size()).map(|s| s.time_rays()).collect());
    let [ray, ray_in_tree] = most(subjects(large::for_rays()).map(|s| s.time_rays()).collect());
    let built = subjects(large::for_rays()).map(|s| s.time_building()).fold(0.0, f64::max);
    let [readings, readings_in_tree] = most(subjects(large::for_readings()).map(|s| s.time_readings()).collect());
    println!(
        "rays: at 4,096 polygons a ray takes at most {ray_in_tree:.2} times the Rust's in its tree ({} is asked) and {ray:.3} times its scan, below that at \
         most {few:.2} times its tree; the tree is built in at most {built:.2} times its time ({} is asked); the readings take at most {readings:.2} times \
         its scan and {readings_in_tree:.2} times its tree",
        MOST[0], MOST[1]
    );
}
