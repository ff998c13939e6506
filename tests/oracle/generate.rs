//! Writes part files for the comparison of the checker with the Rust it was ported from.
//!
//! generate COUNT [SEED]           a stream: for each file its length (u32, little-endian), then it
//! generate --names COUNT [SEED]   a line per file: number, shape, process, mutation, length
//! generate --one I [SEED]         file I alone
//! generate --closed COUNT [SEED]  per shape: files, those closed, those of a volume above 0
//!
//! File I of a seed depends on the two numbers alone.
use common::generate::{job, mix};
use std::collections::BTreeMap;
use std::io::{self, BufWriter, Write};

const USAGE: &str = "usage: generate [--names | --one | --closed] NUMBER [SEED]";

fn main() -> io::Result<()> {
    let words: Vec<String> = std::env::args().skip(1).collect();
    let option = words.iter().find(|w| w.starts_with("--")).map(String::as_str);
    let numbers: Option<Vec<u64>> = words.iter().filter(|w| !w.starts_with("--")).map(|w| w.parse().ok()).collect();
    let Some([number, rest @ ..]) = numbers.as_deref() else { return refuse() };
    let seed = rest.first().copied().unwrap_or(1);
    let out = &mut BufWriter::new(io::stdout().lock());
    match option {
        None => stream(out, *number, seed)?,
        Some("--names") => names(out, *number, seed)?,
        Some("--one") => out.write_all(&mix::make(seed, *number).bytes)?,
        Some("--closed") => closed(out, *number, seed)?,
        Some(_) => return refuse(),
    }
    out.flush()
}

fn refuse() -> io::Result<()> {
    eprintln!("{USAGE}");
    std::process::exit(2)
}

fn stream(out: &mut impl Write, count: u64, seed: u64) -> io::Result<()> {
    for i in 0..count {
        let bytes = mix::make(seed, i).bytes;
        out.write_all(&(bytes.len() as u32).to_le_bytes())?;
        out.write_all(&bytes)?;
    }
    Ok(())
}

fn names(out: &mut impl Write, count: u64, seed: u64) -> io::Result<()> {
    for i in 0..count {
        let made = mix::make(seed, i);
        let process = job::PROCESSES[made.process as usize];
        writeln!(out, "{i}\t{}\t{process}\t{}\t{}", made.shape, made.mutation, made.bytes.len())?;
    }
    Ok(())
}

/// A check of the shapes themselves.
fn closed(out: &mut impl Write, count: u64, seed: u64) -> io::Result<()> {
    let mut tally: BTreeMap<&str, [u64; 3]> = BTreeMap::new();
    for i in 0..count {
        let (shape, part) = mix::bare(seed, i);
        let row = tally.entry(shape).or_default();
        row[0] += 1;
        row[1] += u64::from(part.is_closed());
        row[2] += u64::from(part.volume() > 0.0);
    }
    for (shape, [files, closed, solid]) in tally {
        writeln!(out, "{shape:16} {files:7} files {closed:7} closed {solid:7} of positive volume")?;
    }
    Ok(())
}
