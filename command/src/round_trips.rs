//! What holds of every part file: the reader here agrees with the check, and `show` then `make` gives the same bytes.
use crate::part::{Part, JOB, POLYGON, TRAILER, VERTEX};
use crate::place::tell;
use crate::{make, show};
use gablemadder::{Checker, Refusal};
use std::env;
use std::fmt::{self, Display, Formatter};
use std::fs;

/// What a file was found to be.
#[derive(Default)]
struct Tally {
    files: usize,
    well_formed: usize,
    with_place: usize,
}

impl Display for Tally {
    fn fmt(&self, f: &mut Formatter) -> fmt::Result {
        let Tally { files, well_formed, with_place } = self;
        write!(f, "round trips: {files} files, {well_formed} of them well formed and made again byte for byte; {with_place} refusals with a place")
    }
}

impl Tally {
    /// Compares the reader with the check, and a well-formed file with what is made from its text.
    fn test(&mut self, checker: &mut Checker, file: &[u8]) {
        let checked = checker.check(file).map(|_| ()).err();
        self.files += 1;
        match Part::read(file) {
            Ok(part) => {
                assert!(checked.is_none_or(|refusal| refusal.number() > 7), "{checked:?} of a file that was read");
                assert_eq!(part.bytes(), file);
                let made = make::part(show::text(&part).as_bytes()).unwrap_or_else(|wrong| panic!("{wrong}:\n{}", show::text(&part)));
                assert_eq!(made.bytes(), file);
                self.well_formed += 1;
            }
            Err(wrong) => assert_eq!(checked, Some(wrong.refusal), "{}", wrong.place),
        }
        if let Some(refusal) = checked {
            let told = tell(file, refusal);
            assert!(told.place.is_some() || refusal == Refusal::TooManyFaults, "{told}");
            assert!(!told.to_string().contains('\n'), "{told}");
            self.with_place += usize::from(told.place.is_some());
        }
    }
}

/// Numbers that look random, the same in every run.
struct Random(u64);

impl Random {
    fn below(&mut self, n: usize) -> usize {
        self.0 ^= self.0 << 13;
        self.0 ^= self.0 >> 7;
        self.0 ^= self.0 << 17;
        (self.0 % n as u64) as usize
    }
}

/// A copy with one field changed, most often one of the last vertex, the first polygons, the job or the trailer.
fn damaged(file: &[u8], random: &mut Random) -> Vec<u8> {
    let reals = [0.0, -0.0, 1.0, 2.0, -2.0, 0.001, 1e4, -1e4, 10000.000000000002, f64::NAN, f64::INFINITY, 5e-324, 0.1, 1e3];
    let words = [0, 1, 2, 3, 4, 5, 8, 15, 16, 40, 41, 63, 64, 65, 900, 901, 100_000, 100_001, 0x2020_2020, u32::MAX];
    let mut file = file.to_vec();
    let tail = (VERTEX + 2 * POLYGON + JOB + TRAILER).min(file.len());
    let from = if random.below(4) == 0 { 0 } else { file.len() - tail };
    let at = from + random.below((file.len() - from) / 4) * 4;
    match random.below(5) {
        0 if at + 8 <= file.len() => file[at..at + 8].copy_from_slice(&reals[random.below(reals.len())].to_le_bytes()),
        1 => file[at + random.below(4)] ^= 1 << random.below(8),
        2 => file[at + random.below(4)] = [0x1f, 0x20, 0x22, 0x5c, 0x7e, 0x7f][random.below(6)],
        _ => file[at..at + 4].copy_from_slice(&words[random.below(words.len())].to_le_bytes()),
    }
    file
}

/// Bytes of what stands before a file in the list that the program replay_check replays: the length first.
const HEADER: usize = 20;

/// The files of that list, whose runs of zeros are packed.
fn replayed() -> Vec<Vec<u8>> {
    let list = fs::read(concat!(env!("CARGO_MANIFEST_DIR"), "/../crates/replay_check/stdin")).unwrap();
    let mut files = Vec::new();
    let mut rest = &list[..];
    while !rest.is_empty() {
        let length = u32::from_le_bytes(rest[..4].try_into().unwrap()) as usize;
        let (packed, after) = rest[HEADER..].split_at(length);
        files.push(unpacked(packed));
        rest = after;
    }
    files
}

fn unpacked(packed: &[u8]) -> Vec<u8> {
    let mut file = Vec::new();
    let mut bytes = packed.iter();
    while let Some(&byte) = bytes.next() {
        match byte {
            0 => file.resize(file.len() + *bytes.next().unwrap() as usize, 0),
            _ => file.push(byte),
        }
    }
    file
}

#[test]
fn of_the_replayed_files() {
    let mut tally = Tally::default();
    let mut checker = Checker::new();
    let mut random = Random(1);
    for file in replayed() {
        tally.test(&mut checker, &file);
        if file.len() >= 4 {
            (0..200).for_each(|_| tally.test(&mut checker, &damaged(&file, &mut random)));
        }
    }
    assert!(tally.well_formed > 10_000 && tally.with_place > 10_000, "{tally}");
}

/// Of the files that tests/oracle/generate.rs wrote to the file that GABLEMADDER_PARTS names, each after its length.
#[test]
#[ignore = "needs generated files: tests/run command"]
fn of_generated_files() {
    let stream = fs::read(env::var_os("GABLEMADDER_PARTS").expect("GABLEMADDER_PARTS names a file")).unwrap();
    let mut tally = Tally::default();
    let mut checker = Checker::new();
    let mut random = Random(2);
    let mut rest = &stream[..];
    while !rest.is_empty() {
        let length = u32::from_le_bytes(rest[..4].try_into().unwrap()) as usize;
        let (file, after) = rest[4..].split_at(length);
        tally.test(&mut checker, file);
        if length >= 4 {
            (0..5).for_each(|_| tally.test(&mut checker, &damaged(file, &mut random)));
        }
        rest = after;
    }
    println!("\n{tally}");
}
