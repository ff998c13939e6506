//! What the tests, the benchmarks, the fuzzer and the generator share and that asks no oracle: the library's functions as Rust sees them, lent buffers,
//! part files and parts to try. What compares with the oracle stands in tests/against.
pub mod best;
pub mod bores;
pub mod change;
pub mod damage;
pub mod field;
pub mod full;
pub mod gablemadder;
pub mod guard;
pub mod ids;
pub mod large;
pub mod many;
pub mod mesh;
pub mod obj_reader;
pub mod polygon;
pub mod random;
pub mod reader;
pub mod sample;
pub mod scratch;
pub mod shapes;
pub mod stream;
pub mod sweep;
pub mod tally;
pub mod trees;
pub mod vector;
pub mod voxels;
pub mod walls;

/// Part files as tests/oracle/generate.rs writes them.
pub mod generate {
    pub mod cover;
    pub mod damage;
    pub mod draw;
    pub mod file;
    pub mod findings;
    pub mod hollow;
    pub mod job;
    pub mod limits;
    pub mod limits_print;
    pub mod limits_rays;
    pub mod limits_sheet;
    pub mod mix;
    pub mod part;
    pub mod plate;
    pub mod ring;
    pub mod sheet;
    pub mod soup;
    pub mod space;
    pub mod stand;
    pub mod step;
}

/// A comparison, to which files are given one after another.
pub trait Check {
    /// The answer that is expected to the file; `what` names it where there is a difference.
    fn check(&mut self, file: &[u8], what: impl FnOnce() -> String) -> u32;
}
