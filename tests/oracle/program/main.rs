//! The Rust's check behind the part file of document 01: the same reader, refusals and printed report for every build.
//!
//! usage: PROGRAM [--reals N] [--words N] [--rows N] [--report N] < part file > answer
//!        PROGRAM --batch [..] < stream > stream     any number of part files, each after its length (u32, little-endian); so the answers
//! The numbers are the sizes that a caller lends: f64 and u32 scratch, fault rows, report bytes. Without them there is enough.
mod check;
mod dfm;
mod material;
mod math;
mod part;
mod sine;
mod solid;
mod text;

/// What dfm.rs imports by the name of its crate.
mod anvil_kernel {
    pub use crate::math::{v3, Vec3};
    pub use crate::solid::{FaceId, Solid, SurfaceKind};
}

use check::{Checked, Lent};
use std::io::{self, Read, Write};

fn answer_text(bytes: &[u8], lent: &Lent) -> String {
    let answer = Checked::of(bytes).and_then(|checked| checked.answer(lent).map(String::from));
    answer.unwrap_or_else(|number| format!("refused {number}\n"))
}

fn main() -> io::Result<()> {
    let mut lent = Lent { reals: usize::MAX, words: usize::MAX, rows: usize::MAX, report: usize::MAX };
    let mut batch = false;
    let mut args = std::env::args().skip(1);
    while let Some(arg) = args.next() {
        let size = match arg.as_str() {
            "--batch" => {
                batch = true;
                continue;
            }
            "--reals" => &mut lent.reals,
            "--words" => &mut lent.words,
            "--rows" => &mut lent.rows,
            "--report" => &mut lent.report,
            _ => panic!("unknown option {arg}"),
        };
        *size = args.next().expect("a number").parse().expect("a number");
    }
    let mut input = Vec::new();
    io::stdin().read_to_end(&mut input)?;
    let mut out = io::BufWriter::new(io::stdout().lock());
    if !batch {
        return out.write_all(answer_text(&input, &lent).as_bytes());
    }
    let mut rest = &input[..];
    while !rest.is_empty() {
        let n = u32::from_le_bytes(rest[..4].try_into().unwrap()) as usize;
        let file = &rest[4..4 + n];
        let answer = answer_text(file, &lent);
        out.write_all(&(answer.len() as u32).to_le_bytes())?;
        out.write_all(answer.as_bytes())?;
        rest = &rest[4 + n..];
    }
    out.flush()
}
