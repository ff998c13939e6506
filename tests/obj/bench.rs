//! Time from OBJ text to part file, beside the plain Rust reader of the test: the ratio of the best of many rounds, taken in turn in one run.
use common::best::best;
use common::{gablemadder, obj_reader as reader, sample};
use std::fmt::Write;
use std::hint::black_box;

const MOST_FILE: usize = 24 * reader::MOST_VERTICES + 80 * reader::MOST_POLYGONS + 144;
/// Columns and rows of squares, each two triangles.
const SIDE: usize = 32;

/// A wavy sheet above a flat one, 4,096 triangles over 2,178 vertices, in 64 faces.
fn sheets() -> String {
    let mut text = String::from("# two sheets\n");
    for at in 0..2 * (SIDE + 1) * (SIDE + 1) {
        let (top, x, y) = (at / ((SIDE + 1) * (SIDE + 1)), at % (SIDE + 1), at / (SIDE + 1) % (SIDE + 1));
        let z = if top == 0 { 0.0 } else { 5.0 + (x as f64 / 3.0).sin() * (y as f64 / 5.0).cos() };
        let _ = writeln!(text, "v {:.4} {:.4} {z:.6}", 1.25 * x as f64, 1.25 * y as f64 - 20.0);
    }
    for square in 0..2 * SIDE * SIDE {
        if square % SIDE == 0 {
            let _ = writeln!(text, "g {}", square / SIDE);
        }
        let (sheet, x, y) = (square / (SIDE * SIDE), square % SIDE, square / SIDE % SIDE);
        let a = sheet * (SIDE + 1) * (SIDE + 1) + y * (SIDE + 1) + x + 1;
        let (b, c, d) = (a + 1, a + SIDE + 2, a + SIDE + 1);
        let _ = writeln!(text, "f {a} {b} {c}\nf {a} {c} {d}");
    }
    text
}

/// About 10 MB: a million vertices, of which one face uses the first and the last.
fn unused() -> String {
    let mut text = String::with_capacity(11 << 20);
    for k in 0..1_000_000 {
        let _ = writeln!(text, "v {} {} .{}", k % 100, k % 37, k % 10);
    }
    text.push_str("f 1 500000 1000000\n");
    text
}

fn time(what: &str, rounds: usize, text: &str) {
    let text = text.as_bytes();
    let job = sample::job(0, 15, b"Aluminium 6061");
    let (mut out, mut written) = (vec![0; MOST_FILE], 0);
    let plain = |text: &[u8]| reader::read(text).map(|part| part.file(&job));
    assert_eq!(gablemadder::obj(text, &job, &mut out, &mut written), 0);
    assert_eq!(plain(text).as_deref(), Ok(&out[..written]));
    let (ours, peer) = best(
        rounds,
        1000,
        &mut || {
            black_box(gablemadder::obj(black_box(text), &job, &mut out, &mut written));
        },
        &mut || {
            let _ = black_box(plain(black_box(text)));
        },
    );
    println!("obj, {what}, {} bytes: {ours:.1} µs, the plain reader {peer:.1} µs: {:.2} times its time", text.len(), ours / peer);
}

fn main() {
    time("8 faces, 12 vertices", 5000, include_str!("../../examples/parts/angle.obj"));
    time("4,096 triangles, 2,178 vertices", 500, &sheets());
    time("a million vertices, 3 of them used", 10, &unused());
}
