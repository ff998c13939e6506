//! Choices and sizes, drawn from the seeded source. Only + - * / and the square root are used
//! on floats, here and in the shapes, so that a file is the same on every machine.
use crate::random::Random;

pub struct Draw(Random);

impl Draw {
    /// The source of one file.
    pub fn of(seed: u64, number: u64) -> Draw {
        Draw(Random::of(seed, number))
    }

    pub fn bits(&mut self) -> u64 {
        self.0.next()
    }

    pub fn below(&mut self, n: usize) -> usize {
        self.0.below(n as u64) as usize
    }

    /// From lo to hi, both included.
    pub fn from(&mut self, lo: usize, hi: usize) -> usize {
        lo + self.below(hi - lo + 1)
    }

    pub fn one_in(&mut self, n: usize) -> bool {
        self.below(n) == 0
    }

    pub fn pick<T: Copy>(&mut self, choices: &[T]) -> T {
        choices[self.below(choices.len())]
    }

    /// From 0 up to, not including, 1.
    pub fn unit(&mut self) -> f64 {
        (self.bits() >> 11) as f64 / (1u64 << 53) as f64
    }

    pub fn between(&mut self, lo: f64, hi: f64) -> f64 {
        lo + (hi - lo) * self.unit()
    }

    /// A length, each doubling equally likely, as a drawing has it (quarters, hundredths) or raw.
    pub fn size(&mut self, lo: f64, hi: f64) -> f64 {
        let mut doublings = 0;
        let mut top = lo;
        while top * 2.0 < hi {
            top *= 2.0;
            doublings += 1;
        }
        let base = lo * (1u64 << self.below(doublings + 1)) as f64;
        let raw = (base * (1.0 + self.unit())).min(hi);
        let rounded = match self.below(3) {
            0 => (raw * 4.0).round() / 4.0,
            1 => (raw * 100.0).round() / 100.0,
            _ => raw,
        };
        if rounded > 0.0 { rounded } else { raw }
    }

    /// x or a value close beside it. The slack of 1e-9 that many rules add moves the limit, and
    /// a wall's reading is off by a few roundings, hence the steps about x - 1e-9 and x - 1e-6.
    pub fn beside(&mut self, x: f64) -> f64 {
        match self.below(14) {
            0 | 1 => x,
            2 => x.next_up(),
            3 => x.next_down(),
            4 | 5 => self.steps(x),
            6 => x - 1e-9,
            7..=9 => self.steps(x - 1e-9),
            10 => self.steps(x + 1e-9),
            11 => x + self.pick(&[-2e-9, 2e-9, -1e-7, 1e-7]),
            12 => self.steps(x - 1e-6),
            _ => x * self.pick(&[0.9, 0.99, 0.999, 1.001, 1.01, 1.1]),
        }
    }

    /// A few f64 up or down from x.
    pub fn steps(&mut self, x: f64) -> f64 {
        let mut y = x;
        let up = self.one_in(2);
        for _ in 0..self.pick(&[1, 1, 2, 2, 3, 6]) {
            y = if up { y.next_up() } else { y.next_down() };
        }
        y
    }

    /// A shuffle of 0..n.
    pub fn order(&mut self, n: usize) -> Vec<usize> {
        let mut order: Vec<usize> = (0..n).collect();
        for i in (1..n).rev() {
            order.swap(i, self.below(i + 1));
        }
        order
    }
}
