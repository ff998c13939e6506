//! Lent cells full of garbage, to one side of them pages that can't be touched and to the other a margin that no call may reach.
use crate::gablemadder::FaultRow;
use crate::guard::Guarded;
use crate::random::Random;

const MARGIN: usize = 16;

pub trait Cell: Copy {
    fn from_bits(bits: u64) -> Self;
    fn same(self, other: Self) -> bool;
}

impl Cell for u8 {
    fn from_bits(bits: u64) -> u8 {
        bits as u8
    }

    fn same(self, other: u8) -> bool {
        self == other
    }
}

impl Cell for u32 {
    fn from_bits(bits: u64) -> u32 {
        bits as u32
    }

    fn same(self, other: u32) -> bool {
        self == other
    }
}

impl Cell for f64 {
    fn from_bits(bits: u64) -> f64 {
        f64::from_bits(bits)
    }

    fn same(self, other: f64) -> bool {
        self.to_bits() == other.to_bits()
    }
}

impl FaultRow {
    fn bits(self) -> [u64; 9] {
        let FaultRow { kind, severity, count, a, b, waived, x, y, z } = self;
        let [kind, severity, count, a, b, waived] = [kind, severity, count, a, b, waived].map(u64::from);
        [kind, severity, count, a, b, waived, x.to_bits(), y.to_bits(), z.to_bits()]
    }
}

/// Rows differ where a bit does.
impl Cell for FaultRow {
    fn from_bits(bits: u64) -> FaultRow {
        let word = |k: u32| bits.rotate_right(5 * k) as u32;
        let real = |k: u32| f64::from_bits(bits.rotate_left(7 * k));
        FaultRow { kind: word(0), severity: word(1), count: word(2), a: word(3), b: word(4), waived: word(5), x: real(0), y: real(1), z: real(2) }
    }

    fn same(self, other: FaultRow) -> bool {
        self.bits() == other.bits()
    }
}

pub struct Scratch<T> {
    cells: Guarded<T>,
    before: Vec<T>,
    /// Where the lent cells begin: after the margin, or without one.
    lead: usize,
    lent: usize,
}

impl<T: Cell> Scratch<T> {
    pub fn new() -> Scratch<T> {
        Scratch::named("scratch")
    }

    /// By the name that a crash is to say.
    pub fn named(name: &'static str) -> Scratch<T> {
        Scratch { cells: Guarded::new(name), before: Vec::new(), lead: 0, lent: 0 }
    }

    /// So many cells, filled by one of four kinds of garbage: anything, all ones, zeros, and numbers below `small`, which look like numbers of
    /// vertices, polygons or cells. They end directly before pages that can't be touched; about every fourth time they begin directly after some.
    pub fn lend(&mut self, n: usize, kind: usize, small: usize, random: &mut Random) {
        let limit = small as u64 + 2;
        self.before.clear();
        self.before.extend((0..n + 2 * MARGIN).map(|_| {
            T::from_bits(match kind % 4 {
                0 => random.next(),
                1 => u64::MAX,
                2 => random.below(limit),
                _ => 0,
            })
        }));
        self.before.truncate(n + MARGIN);
        // by the state of the source, of which nothing is drawn for it
        let last = (random.0 >> 33) % 4 != 3;
        (self.lead, self.lent) = (if last { MARGIN } else { 0 }, n);
        self.cells.lend(n + MARGIN, last);
        self.cells.copy_from_slice(&self.before);
    }

    /// Cells that hold this, for a call that only reads them.
    pub fn hold(&mut self, these: &[T], random: &mut Random) {
        self.lend(these.len(), 0, 0, random);
        let at = self.lead..self.lead + self.lent;
        self.before[at.clone()].copy_from_slice(these);
        self.cells[at].copy_from_slice(these);
    }

    pub fn cells(&mut self) -> &mut [T] {
        &mut self.cells[self.lead..][..self.lent]
    }

    /// All but the last cell.
    pub fn one_short(&mut self) -> &mut [T] {
        let cells = self.cells();
        let n = cells.len();
        &mut cells[..n - 1]
    }

    fn same(&self, range: std::ops::Range<usize>) -> bool {
        self.cells[range.clone()].iter().zip(&self.before[range]).all(|(a, b)| a.same(*b))
    }

    pub fn is_unchanged(&self) -> bool {
        self.same(0..self.cells.len())
    }

    /// All past the first n of the lent cells, and the margin.
    pub fn is_unchanged_past(&self, n: usize) -> bool {
        self.same(0..self.lead) && self.same(self.lead + n..self.cells.len())
    }

    /// All of the lent cells are zero, and the margin as it was.
    pub fn is_zero(&self) -> bool {
        let lent = &self.cells[self.lead..][..self.lent];
        lent.iter().all(|c| c.same(T::from_bits(0))) && self.margins_are_unchanged()
    }

    pub fn margins_are_unchanged(&self) -> bool {
        self.is_unchanged_past(self.lent)
    }
}

/// A call that is to be refused by this number and to change nothing.
pub fn is_refusal(call: &str, ours: u32, number: u32, unchanged: bool) -> Result<(), String> {
    if !unchanged {
        return Err(format!("{call} answers {ours} and changes cells"));
    }
    if ours == number {
        Ok(())
    } else {
        Err(format!("{call} {ours} for {number}"))
    }
}
