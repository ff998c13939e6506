//! The check of part files against the patched Rust's: the report byte by byte, refusals 1 to 12, and every lent buffer before and after.
//! Takes generated files from standard input, and the file `corner` of docs/DIFFERENCES.md by its path; with --quick there are fewer of the others.
mod thin;

use against::compare::Compare;
use against::parts;
use against::seen::Seen;
use common::mesh::Mesh;
use common::random::Random;
use common::tally::Tally;
use common::{full, guard, stream, sweep, Check};
use std::ffi::CStr;
use std::sync::mpsc::{sync_channel, Receiver};
use std::sync::Mutex;
use std::thread;

const LEAST: u64 = 1_000_000;
const SHAPES: u64 = 150_000;
/// Parts whose lengths crowd around 0.1 mm and below.
const THIN: u64 = 1_000_000;
/// The complaint that started it all has one answer in so many runs.
const RUNS: u64 = 1_000;
/// Changed copies of larger files cost more than they show.
const LARGE: usize = 100_000;
/// Where the smallest file with a difference is put.
const DIFFERENT: &str = "target/tests/check/different";
/// Where the file is put over which the check crashes.
const CRASHED: &CStr = c"target/tests/check/crashed";

type Generated = Mutex<Receiver<(u64, Vec<u8>)>>;

fn main() {
    let words: Vec<String> = std::env::args().skip(1).collect();
    let quick = words.iter().any(|w| w == "--quick");
    let corner = words.iter().find(|w| !w.starts_with("--")).expect("the path of `corner`");
    let corner = std::fs::read(corner).expect("the file `corner`");
    let threads = thread::available_parallelism().map_or(2, |n| n.get() as u64);
    let (sender, receiver) = sync_channel(256);
    let receiver: Generated = Mutex::new(receiver);
    let done: Vec<Compare> = thread::scope(|scope| {
        let work = |k: u64| {
            let (corner, receiver) = (&corner[..], &receiver);
            scope.spawn(move || {
                guard::keep_at(CRASHED);
                let mut c = Compare::new(40 + k);
                own(&mut c, k, threads, quick, corner);
                from_input(&mut c, receiver);
                c
            })
        };
        let workers: Vec<_> = (0..threads).map(work).collect();
        stream::each(|number, file| sender.send((number, file.to_vec())).expect("a test thread failed")).expect("a stream of part files");
        drop(sender);
        workers.into_iter().map(|w| w.join().expect("a test thread failed")).collect()
    });
    std::process::exit(report(done, quick));
}

/// Each of the threads takes its share of what is drawn here.
fn own(c: &mut Compare, thread: u64, threads: u64, quick: bool, corner: &[u8]) {
    if thread == 0 {
        c.again(corner, RUNS, "1,000 runs of `corner`");
        if !quick {
            sweep::run(c, 1);
        }
    }
    if thread + 1 == threads {
        full::run(c, if quick { 1 } else { 5 });
        special(c, if quick { 1 } else { 3 }, quick);
    }
    let shapes = if quick { SHAPES / 100 } else { SHAPES };
    for number in (thread..shapes).step_by(threads as usize) {
        shape(c, number);
    }
    let thin = if quick { THIN / 100 } else { THIN };
    for number in (thread..thin).step_by(threads as usize) {
        thin_part(c, number);
    }
}

/// A part, a changed copy and a damaged one, by its number alone.
fn shape(c: &mut Compare, number: u64) {
    let mut random = Random::of(50, number);
    let mesh = parts::draw(&mut random);
    c.check(&mesh.bytes(), || format!("shape {number}"));
    c.check(&parts::changed(&mut random, &mesh).bytes(), || format!("shape {number}, changed"));
    if number % 4 == 0 {
        c.check(&parts::damaged(&mut random, &mesh), || format!("shape {number}, damaged"));
    }
}

/// A part of thin lengths, by its number alone.
fn thin_part(c: &mut Compare, number: u64) {
    let file = thin::draw(&mut Random::of(53, number)).bytes();
    if c.check(&file, || format!("thin part {number}")) == 0 {
        thin::count(&mut c.seen, &file);
    }
}

/// Many faults, and many polygons.
fn special(c: &mut Compare, times: u64, quick: bool) {
    for _ in 0..times {
        for (name, mesh) in parts::of_many_faults() {
            c.check(&mesh.bytes(), || name);
        }
    }
    for (name, mesh) in parts::large(&mut Random(51)).into_iter().step_by(if quick { 7 } else { 1 }) {
        c.check(&mesh.bytes(), || name);
    }
}

/// Generated files, as they are and changed.
fn from_input(c: &mut Compare, files: &Generated) {
    let next = || files.lock().expect("a test thread failed").recv().ok();
    while let Some((number, file)) = next() {
        if c.check(&file, || format!("generated file {number}")) == 0 && file.len() < LARGE {
            let mut random = Random::of(52, number);
            let changed = parts::changed(&mut random, &Mesh::read(&file));
            c.check(&changed.bytes(), || format!("generated file {number}, changed"));
        }
    }
}

/// Prints the figures. The program's status: not 0 on a difference, or where too little was seen.
fn report(done: Vec<Compare>, quick: bool) -> i32 {
    let (mut tally, mut seen, mut calls) = (Tally::default(), Seen::wanted(), 0);
    for c in done {
        (tally, seen, calls) = (tally.and(c.tally), seen.and(c.seen), calls + c.calls);
    }
    println!("check: {}", seen.text());
    tally.keep_smallest("check: the smallest file", DIFFERENT);
    let (files, different) = (tally.compared, tally.different);
    let rare = [seen.too_rare(), thin::too_rare(&seen)].concat();
    let few = !quick && (files < LEAST || !rare.is_empty());
    if few {
        println!("check: fewer than {LEAST} files, or too rare: {}", rare.join("; "));
    }
    println!("check: {files} files, {calls} calls, {different} differences");
    i32::from(different != 0 || few)
}
