//! The numbers against Rust's own: roots and roundings bit by bit, texts byte by byte, buffers before and after.
//! With --quick a twentieth of it.
mod decimals;
mod roots;
mod roundings;
mod texts;

use common::tally::Tally;
use std::thread;

fn main() {
    let quick = std::env::args().any(|a| a == "--quick");
    let scale = if quick { 1 } else { 20 };
    let parts: Vec<(&str, fn(u64) -> Tally)> =
        vec![("roots", roots::run), ("decimals", decimals::run), ("texts", texts::run), ("roundings", roundings::run)];
    let running: Vec<_> = parts.into_iter().map(|(name, run)| (name, thread::spawn(move || run(scale)))).collect();
    let mut different = 0;
    let mut line = String::from("numbers:");
    for (name, handle) in running {
        let tally = handle.join().expect("a test thread failed");
        line += &format!(" {} {} as Rust's", tally.compared - tally.by_rule, name);
        if tally.by_rule > 0 {
            line += &format!(" and {} by rule", tally.by_rule);
        }
        line += ",";
        different += tally.different;
    }
    println!("{line} {different} differences");
    std::process::exit((different != 0) as i32);
}
