//! How much a check has to be lent.

/// The most vertices that a part may have.
pub const MOST_VERTICES: usize = 16_384;
/// The most polygons.
pub const MOST_POLYGONS: usize = 4_096;
/// The most faults, and so the most rows that can be of use.
pub const MOST_ROWS: usize = 2_048;
/// No report is longer, in bytes: it has a first line of at most 60, at most 2,048 lines of at most 301 beside their faces, and at most 9,216 faces of at
/// most 22 (two for each fault, all 1,024 for the one fault that may name them all, and for hollows one for each polygon).
pub const MOST_REPORT: usize = 1 << 20;

/// Bytes of a part file's job and trailer.
const JOB_AND_TRAILER: usize = 144;

/// The scratch of a check.
#[derive(Clone, Copy, Debug, Default, PartialEq, Eq)]
pub struct Scratch {
    /// How many u32.
    pub words: usize,
    /// How many f64.
    pub reals: usize,
}

impl Scratch {
    /// Enough for a part of so many vertices and polygons.
    pub const fn for_counts(vertices: usize, polygons: usize) -> Scratch {
        Scratch { words: 12 * polygons + 8 * vertices + 1024, reals: 24 * polygons + 8 * vertices + 2048 }
    }

    /// Enough for this file, by the counts in its trailer; nothing where refusals 1 to 4 turn it back, whatever is lent.
    pub fn of(file: &[u8]) -> Scratch {
        let Some((vertices, polygons)) = counts(file) else {
            return Scratch::default();
        };
        Scratch::for_counts(vertices, polygons)
    }
}

/// V and P, where the file is as long as they say and neither is over its limit.
fn counts(file: &[u8]) -> Option<(usize, usize)> {
    let trailer = file.last_chunk::<16>()?;
    let word = |at: usize| u32::from_le_bytes([trailer[at], trailer[at + 1], trailer[at + 2], trailer[at + 3]]) as usize;
    let (vertices, polygons) = (word(4), word(8));
    let few = vertices <= MOST_VERTICES && polygons <= MOST_POLYGONS;
    (few && file.len() == 24 * vertices + 80 * polygons + JOB_AND_TRAILER).then_some((vertices, polygons))
}

#[cfg(test)]
mod tests {
    use super::*;

    fn file(length: usize, vertices: u32, polygons: u32) -> Vec<u8> {
        let mut file = vec![0; length];
        file[length - 12..length - 8].copy_from_slice(&vertices.to_le_bytes());
        file[length - 8..length - 4].copy_from_slice(&polygons.to_le_bytes());
        file
    }

    #[test]
    fn by_the_counts_of_the_trailer() {
        assert_eq!(Scratch::of(&file(144, 0, 0)), Scratch { words: 1024, reals: 2048 });
        assert_eq!(Scratch::of(&file(144 + 24 * 24 + 80 * 6, 24, 6)), Scratch { words: 1288, reals: 2384 });
    }

    #[test]
    fn nothing_where_the_file_is_turned_back() {
        assert_eq!(Scratch::of(&[]), Scratch::default());
        assert_eq!(Scratch::of(&[0; 15]), Scratch::default());
        assert_eq!(Scratch::of(&file(145, 0, 0)), Scratch::default());
        assert_eq!(Scratch::of(&file(144, u32::MAX, u32::MAX)), Scratch::default());
        assert_eq!(Scratch::of(&file(144 + 24 * 16_385, 16_385, 0)), Scratch::default());
        assert_eq!(Scratch::of(&file(144 + 80 * 4_097, 0, 4_097)), Scratch::default());
    }
}
