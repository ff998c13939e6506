//! Part files of OBJ text against a plain reader in Rust: the answer, the file byte by byte and every lent buffer before and after, on texts drawn,
//! damaged and at each limit; and what the check says of the files. With --quick a twentieth of it.
mod back;
mod compare;
mod damage;
mod draw;
mod limits;
mod long;
mod seen;

use common::guard;
use common::random::Random;
use common::tally::Tally;
use compare::Compare;
use seen::Seen;
use std::ffi::CStr;
use std::thread;

const LEAST: u64 = 1_000_000;
const LEAST_DECIMALS: u64 = 10_000_000;
/// Each is compared as it is and in two damaged copies.
const DRAWN: u64 = 340_000;
/// Texts of 49,152 decimals each.
const OF_DECIMALS: u64 = 220;
/// Where the shortest text with a difference is put, and the one over which a call crashes.
const DIFFERENT: &str = "target/tests/obj/different";
const CRASHED: &CStr = c"target/tests/obj/crashed";

fn main() {
    let quick = std::env::args().any(|a| a == "--quick");
    let threads = thread::available_parallelism().map_or(2, |n| n.get() as u64);
    let done: Vec<(Compare, u64)> = thread::scope(|scope| {
        let workers: Vec<_> = (0..threads).map(|k| scope.spawn(move || share(k, threads, if quick { 20 } else { 1 }))).collect();
        workers.into_iter().map(|w| w.join().expect("a test thread failed")).collect()
    });
    std::process::exit(report(done, quick));
}

/// What one of the threads takes, and how many decimals it compared.
fn share(k: u64, threads: u64, part: u64) -> (Compare, u64) {
    guard::keep_at(CRASHED);
    let mut c = Compare::new(60 + k);
    if k == 0 {
        limits::run(&mut c);
    }
    if k + 1 == threads {
        (0..5u64.div_ceil(part)).for_each(|_| long::sizes(&mut c));
        long::faces(&mut c, &mut Random(64), 400 / part);
        long::windows(&mut c, &mut Random(61), 40 / part);
    }
    for number in (k..DRAWN / part).step_by(threads as usize) {
        drawn(&mut c, number);
    }
    let texts = (k..OF_DECIMALS / part).step_by(threads as usize);
    let decimals = texts.map(|number| long::decimals(&mut c, &mut Random::of(62, number), number)).sum();
    (c, decimals)
}

/// A text and two damaged copies, by its number alone.
fn drawn(c: &mut Compare, number: u64) {
    let mut random = Random::of(63, number);
    let text = draw::text(&mut random);
    c.check(&text, || format!("text {number}"));
    for copy in 0..2 {
        let mut damaged = text.clone();
        damage::damage(&mut random, &mut damaged);
        c.check(&damaged, || format!("text {number}, damaged copy {copy}"));
    }
}

/// Prints the figures. The program's status: not 0 on a difference, or where too little was seen.
fn report(done: Vec<(Compare, u64)>, quick: bool) -> i32 {
    let (mut tally, mut seen, mut calls, mut decimals) = (Tally::default(), Seen::wanted(), 0, 0);
    for (c, of_decimals) in done {
        (tally, seen, calls) = (tally.and(c.tally), seen.and(c.seen), calls + c.calls);
        decimals += of_decimals;
    }
    println!("obj: {}", seen.text_of());
    tally.keep_smallest("obj: the shortest text", DIFFERENT);
    let (texts, different) = (tally.compared, tally.different);
    let rare = seen.too_rare();
    let few = !quick && (texts < LEAST || decimals < LEAST_DECIMALS || !rare.is_empty());
    if few {
        println!("obj: fewer than {LEAST} texts or {LEAST_DECIMALS} decimals, or too rare: {}", rare.join("; "));
    }
    println!("obj: {texts} texts, {calls} calls, {decimals} decimals in long texts, {different} differences");
    i32::from(different != 0 || few)
}
