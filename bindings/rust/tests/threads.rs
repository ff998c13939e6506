//! Checks that run at once.
mod common;

use common::{cuboid, hollows, largest, part, plate, CNC, FDM, SHEET, SLS};
use gablemadder::{check, obj_to_part, Checker, Refusal, JOB, MOST_POLYGONS, MOST_ROWS};
use std::thread;

/// The answer's text, or its refusal.
fn answer(checker: &mut Checker, file: &[u8]) -> Result<String, Refusal> {
    checker.check(file).map(|report| report.text().to_string())
}

/// Parts of every size and answer; no two alike.
fn parts() -> Vec<Vec<u8>> {
    let mut parts = vec![plate(), hollows(MOST_ROWS - 1), hollows(MOST_ROWS), largest(SLS), part(CNC, &[]), vec![0; 100]];
    for k in 1..40 {
        let size = [20.0, 3.0 + k as f64, 0.03 * k as f64];
        parts.push(part([CNC, FDM, SLS][k % 3], &cuboid(k as u32, size)));
        parts.push(hollows(11 * k));
    }
    parts
}

#[test]
fn four_threads_answer_as_one() {
    let parts = parts();
    let mut checker = Checker::new();
    let alone: Vec<_> = parts.iter().map(|file| answer(&mut checker, file)).collect();
    // Each thread begins at another part, so that different parts are checked at once, and goes round twice.
    let round = |start: usize| {
        let mut checker = Checker::new();
        for k in (0..2 * parts.len()).map(|k| (start + k) % parts.len()) {
            assert_eq!(answer(&mut checker, &parts[k]), alone[k], "part {k}");
        }
    };
    thread::scope(|scope| {
        let running: Vec<_> = (0..4).map(|n| scope.spawn(move || round(n * 21))).collect();
        running.into_iter().for_each(|thread| thread.join().unwrap());
    });
}

#[test]
fn little_stack_is_needed() {
    let check_all = || {
        for file in [plate(), largest(CNC), largest(SHEET), largest(FDM), largest(SLS), hollows(MOST_ROWS - 1)] {
            check(&file).ok();
        }
    };
    thread::Builder::new().stack_size(256 * 1024).spawn(check_all).unwrap().join().unwrap();
}

#[test]
fn obj_text_needs_a_mebibyte_of_stack() {
    let text = ["v 1 2 3\n".repeat(40_000), "f 1 20000 39999 40000\n".repeat(MOST_POLYGONS)].concat();
    let make = move || assert!(obj_to_part(text.as_bytes(), &[0; JOB]).is_ok());
    thread::Builder::new().stack_size(1024 * 1024).spawn(make).unwrap().join().unwrap();
}
