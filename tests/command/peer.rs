//! The Rust's check as published, doing what `gablemadder check FILE..` does: each file read, checked and its report printed after its name.
use published::check::Checked;
use std::io::{self, Write};

fn main() -> io::Result<()> {
    let mut out = io::stdout().lock();
    for name in std::env::args().skip(1) {
        let answer = match Checked::of(&std::fs::read(&name)?) {
            Ok(checked) => checked.text,
            Err(number) => format!("refused {number}\n"),
        };
        write!(out, "== {name}\n{answer}")?;
    }
    out.flush()
}
