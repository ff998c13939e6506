//! Time to read and judge a part file at the most polygons and vertices, beside a plain Rust reader that makes the same tests: the ratio of the
//! best of many rounds, taken in turn in one run. The file's last entry is out of the rules, so that the check ends where the reader does.
use common::best::best;
use common::field::{set_word, Blocks};
use common::{gablemadder, reader, sample};
use std::hint::black_box;

const POLYGONS: usize = 4096;
const ROUNDS: usize = 5000;

fn time(what: &str, mut file: Vec<u8>) {
    let last = Blocks::of(&file).expect("a good file").entry(POLYGONS - 1);
    set_word(&mut file, last + 20, 1);
    assert_eq!((gablemadder::refusal(&file), reader::verdict(&file)), (7, 7));
    let (ours, peer) = best(
        ROUNDS,
        1000,
        &mut || {
            black_box(gablemadder::refusal(black_box(&file)));
        },
        &mut || {
            black_box(reader::verdict(black_box(&file)));
        },
    );
    println!("part file, {what}: {ours:.1} µs, the plain reader {peer:.1} µs: {:.2} times its time", ours / peer);
}

fn main() {
    let job = sample::job(0, 15, b"Aluminium 6061");
    let mixed = sample::file(&[4; POLYGONS], 0, &job);
    time("4,096 polygons of every kind, 16,384 vertices", mixed.clone());
    let mut planes = mixed;
    for (i, entry) in planes[24 * 4 * POLYGONS..][..80 * POLYGONS].chunks_exact_mut(80).enumerate() {
        entry.copy_from_slice(&sample::entry(i as u32, 4 * i, 4, 0));
    }
    time("4,096 planes, 16,384 vertices", planes);
}
