//! Where the fields of a part file are, and the values to try in each: the ends of its range, a step past them, and what is no number.
use crate::random::Random;

/// A field's kind, with the ends of its range.
#[derive(Clone, Copy)]
pub enum Kind {
    Byte,
    Word(u32, u32),
    Real(f64, f64),
}

#[derive(Clone, Copy)]
pub struct Field {
    pub at: usize,
    pub kind: Kind,
}

use Kind::{Byte, Real, Word};

const VERTEX: [(usize, Kind); 3] = [(0, Real(-1e4, 1e4)), (8, Real(-1e4, 1e4)), (16, Real(-1e4, 1e4))];

const ENTRY: [(usize, Kind); 13] = [
    (0, Word(0, u32::MAX)),
    (4, Word(0, u32::MAX)),
    (8, Word(0, 16_384)),
    (12, Word(3, 64)),
    (16, Word(0, 3)),
    (20, Word(0, 0)),
    (24, Real(-1e4, 1e4)),
    (32, Real(-1e4, 1e4)),
    (40, Real(-1e4, 1e4)),
    (48, Real(-2.0, 2.0)),
    (56, Real(-2.0, 2.0)),
    (64, Real(-2.0, 2.0)),
    (72, Real(0.001, 1e4)),
];

const JOB: [(usize, Kind); 14] = [
    (0, Word(0, 4)),
    (4, Word(0, 15)),
    (8, Real(-2.0, 2.0)),
    (16, Real(-2.0, 2.0)),
    (24, Real(-2.0, 2.0)),
    (32, Real(0.001, 1e3)),
    (40, Real(0.0, 1e3)),
    (48, Real(0.0, 1e4)),
    (56, Real(0.0, 1e4)),
    (64, Word(0, 900)),
    (68, Word(0, 1)),
    (72, Word(0, 100_000)),
    (76, Word(1, 40)),
    (80, Real(-1e4, 1e4)),
];

const TRAILER: [(usize, Kind); 4] = [(0, Word(1, 1)), (4, Word(0, 16_384)), (8, Word(0, 4_096)), (12, Word(144, 327_824))];

/// Where the blocks of a file begin that has V vertices and P polygons.
#[derive(Clone, Copy)]
pub struct Blocks {
    pub vertices: usize,
    pub polygons: usize,
}

impl Blocks {
    /// None where the counts of the trailer do not fit the length.
    #[inline]
    pub fn of(file: &[u8]) -> Option<Blocks> {
        let n = file.len();
        if n < 144 {
            return None;
        }
        let (vertices, polygons) = (word(file, n - 12) as usize, word(file, n - 8) as usize);
        (24 * vertices + 80 * polygons + 144 == n).then_some(Blocks { vertices, polygons })
    }

    #[inline]
    pub fn entry(&self, i: usize) -> usize {
        24 * self.vertices + 80 * i
    }

    #[inline]
    pub fn job(&self) -> usize {
        self.entry(self.polygons)
    }

    pub fn trailer(&self) -> usize {
        self.job() + 128
    }

    fn put(list: &mut Vec<Field>, start: usize, fields: &[(usize, Kind)]) {
        list.extend(fields.iter().map(|&(at, kind)| Field { at: start + at, kind }));
    }

    /// Every field of the file.
    pub fn fields(&self) -> Vec<Field> {
        let mut list = Vec::new();
        (0..self.vertices).for_each(|i| Blocks::put(&mut list, 24 * i, &VERTEX));
        (0..self.polygons).for_each(|i| Blocks::put(&mut list, self.entry(i), &ENTRY));
        Blocks::put(&mut list, self.job(), &JOB);
        (88..128).for_each(|i| list.push(Field { at: self.job() + i, kind: Byte }));
        Blocks::put(&mut list, self.trailer(), &TRAILER);
        list
    }

    /// A field: of a vertex, an entry, the job or the trailer, each about as often.
    pub fn draw(&self, random: &mut Random) -> Field {
        let (start, fields): (usize, &[(usize, Kind)]) = match random.below(8) {
            0 | 1 if self.vertices > 0 => (24 * random.below(self.vertices as u64) as usize, &VERTEX),
            2..=4 if self.polygons > 0 => (self.entry(random.below(self.polygons as u64) as usize), &ENTRY),
            5 => return Field { at: self.job() + 88 + random.below(40) as usize, kind: Byte },
            6 if random.below(4) == 0 => (self.trailer(), &TRAILER),
            _ => (self.job(), &JOB),
        };
        let (at, kind) = fields[random.below(fields.len() as u64) as usize];
        Field { at: start + at, kind }
    }
}

#[inline]
pub fn word(file: &[u8], at: usize) -> u32 {
    u32::from_le_bytes(file[at..at + 4].try_into().unwrap())
}

#[inline]
pub fn real(file: &[u8], at: usize) -> f64 {
    f64::from_le_bytes(file[at..at + 8].try_into().unwrap())
}

#[inline]
pub fn set_word(file: &mut [u8], at: usize, n: u32) {
    file[at..at + 4].copy_from_slice(&n.to_le_bytes());
}

#[inline]
pub fn set_real(file: &mut [u8], at: usize, x: f64) {
    set_bits(file, at, x.to_bits());
}

/// By its bits, since the compiler may take any NaN for any other.
#[inline]
pub fn set_bits(file: &mut [u8], at: usize, bits: u64) {
    file[at..at + 8].copy_from_slice(&bits.to_le_bytes());
}

/// Zeros, subnormals, the largest, infinities and NaN of several patterns.
pub const ODD: [u64; 22] = [
    0,
    1,
    2,
    0x000f_ffff_ffff_ffff,
    0x0010_0000_0000_0000,
    0x7fef_ffff_ffff_ffff,
    0x7ff0_0000_0000_0000,
    0x7ff0_0000_0000_0001,
    0x7ff7_ffff_ffff_ffff,
    0x7ff8_0000_0000_0000,
    0x7fff_ffff_ffff_ffff,
    0x8000_0000_0000_0000,
    0x8000_0000_0000_0001,
    0x8000_0000_0000_0002,
    0x800f_ffff_ffff_ffff,
    0x8010_0000_0000_0000,
    0xffef_ffff_ffff_ffff,
    0xfff0_0000_0000_0000,
    0xfff0_0000_0000_0001,
    0xfff7_ffff_ffff_ffff,
    0xfff8_0000_0000_0000,
    0xffff_ffff_ffff_ffff,
];

/// The values to try in a field, as bits, lowest bytes first.
pub fn values(file: &[u8], field: Field) -> Vec<u64> {
    match field.kind {
        Byte => vec![0, 1, 0x1f, 0x20, 0x21, 0x7d, 0x7e, 0x7f, 0x80, 0xff],
        Word(lo, hi) => {
            let now = word(file, field.at);
            let list = [lo, hi, lo.wrapping_sub(1), hi.wrapping_add(1), now.wrapping_sub(1), now.wrapping_add(1), 0, 1, 2, 3, 4, 5, 1 << 16, 1 << 31, u32::MAX];
            list.map(u64::from).to_vec()
        }
        Real(lo, hi) => {
            let near = |x: f64| [x.next_down().next_down(), x.next_down(), x, x.next_up(), x.next_up().next_up(), -x];
            let ends = [near(lo), near(hi)].concat();
            ends.into_iter().map(f64::to_bits).chain(ODD).collect()
        }
    }
}

pub fn set(file: &mut [u8], field: Field, value: u64) {
    match field.kind {
        Byte => file[field.at] = value as u8,
        Word(..) => set_word(file, field.at, value as u32),
        Real(..) => set_bits(file, field.at, value),
    }
}
