//! The check of bores with a conical tip against the patched Rust's (tests/against/compare.rs), for all five processes: whether a tip on the axis, or nearly on
//! it, makes a hole. Takes generated files from standard input; with --quick there are fewer of the others.
mod tips;
mod wanted;

use against::frame::{self, Files};
use common::change;
use common::random::Random;
use wanted::Tips;

fn main() {
    frame::run::<Tips>("tips", 53, own, change::changed)
}

fn own(c: &mut Files<Tips>, quick: bool) {
    let mut random = Random(54);
    for number in 0..if quick { 5_000 } else { 250_000 } {
        c.check(&tips::draw(&mut random).bytes(), || format!("tip {number}"));
    }
}
