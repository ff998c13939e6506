//! A written file, read back: the polygons that the part file's layout gives, and the check's refusal, which is none, 5, 6, 8 or 9.
use common::field::word;
use common::gablemadder;
use common::obj_reader::Part;
use common::reader::verdict;
use common::vector::{length, normal_sum};
use std::collections::HashSet;

/// What the check answers where it is lent nothing and nothing else turns the file back.
pub const NONE: u32 = 10;
const MOST_FACES: usize = 1_024;

fn bits(b: &[u8], at: usize) -> [u64; 3] {
    [at, at + 8, at + 16].map(|at| u64::from_le_bytes(b[at..at + 8].try_into().unwrap()))
}

/// The check's refusal of the file, where that and the file's polygons are those of the text.
pub fn read_back(file: &[u8], part: &Part) -> Result<u32, String> {
    let found = polygons(file);
    let mut corners = part.corners.iter();
    let mut same = found.len() == part.faces.len();
    for ((feature, index, points), (wanted, count)) in found.iter().zip(&part.faces) {
        let theirs: Vec<[u64; 3]> = corners.by_ref().take(*count).map(|c| c.map(f64::to_bits)).collect();
        same &= *feature == 1 && index == wanted && *points == theirs;
    }
    if !same || corners.next().is_some() {
        return Err("the file has other polygons".into());
    }
    let (ours, want) = (gablemadder::refusal(file), refusal(file, part));
    if ours != want || ![NONE, 5, 6, 8, 9].contains(&ours) {
        return Err(format!("the check of the file says {ours} for {want}"));
    }
    Ok(ours)
}

/// Feature, index and vertices of each polygon.
fn polygons(file: &[u8]) -> Vec<(u32, u32, Vec<[u64; 3]>)> {
    let end = file.len();
    let entries = end - word(file, end - 4) as usize;
    let entry = |p: usize| {
        let at = entries + 80 * p;
        let (first, count) = (word(file, at + 8) as usize, word(file, at + 12) as usize);
        (word(file, at), word(file, at + 4), (first..first + count).map(|v| bits(file, 24 * v)).collect())
    };
    (0..word(file, end - 8) as usize).map(entry).collect()
}

/// 5 and 6 by the plain reader of part files, 8 and 9 by the text's polygons.
fn refusal(file: &[u8], part: &Part) -> u32 {
    let number = verdict(file);
    let mut corners = &part.corners[..];
    let mut flat = false;
    for (_, count) in &part.faces {
        let (polygon, rest) = corners.split_at(*count);
        flat |= length(normal_sum(polygon)) < 1e-14;
        corners = rest;
    }
    let faces: HashSet<u32> = part.faces.iter().map(|f| f.0).collect();
    match () {
        () if number != 0 => number,
        () if flat => 8,
        () if faces.len() > MOST_FACES => 9,
        () => NONE,
    }
}
