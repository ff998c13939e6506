//! Decimals against `format!("{:.p}")`, and each refusal: the number 13, and not a byte changed.
use common::gablemadder;
use common::random::Random;
use common::tally::Tally;
use std::fmt::Write;

const ROOM: usize = 40;

struct Compare {
    tally: Tally,
    want: String,
    fill: [u8; ROOM],
}

impl Compare {
    /// A number that is taken. Minus zero prints as zero, where Rust prints its sign.
    fn taken(&mut self, x: f64, places: usize) {
        self.want.clear();
        write!(self.want, "{:.*}", places, x.abs()).unwrap();
        let n = self.want.len();
        let mut out = self.fill;
        let got = gablemadder::decimal(x, places as u32, &mut out);
        let same = got == Ok(n) && out[..n] == *self.want.as_bytes() && out[n..] == self.fill[n..];
        self.tally.check(same, || format!("{x:e} to {places} places is {:?}, not {}", String::from_utf8_lossy(&out[..n]), self.want));
    }

    fn refused(&mut self, x: f64, places: u32, room: usize) {
        let mut out = self.fill;
        let got = gablemadder::decimal(x, places, &mut out[..room]);
        self.tally.check_rule(got == Err(13) && out == self.fill, || format!("{x:e} to {places} places in {room} bytes is not refused: {got:?}"));
    }

    fn number(&mut self, x: f64, places: usize) {
        if x >= 0.0 && x < (1u64 << 60) as f64 {
            self.taken(x, places);
        } else {
            self.refused(x, places as u32, ROOM);
        }
    }

    fn neighbours(&mut self, x: f64, places: usize) {
        let bits = x.to_bits();
        for near in bits.saturating_sub(1)..=bits + 1 {
            self.number(f64::from_bits(near), places);
        }
    }
}

pub fn run(scale: u64) -> Tally {
    let mut random = Random(2);
    let mut fill = [0; ROOM];
    fill.fill_with(|| random.next() as u8);
    let mut compare = Compare { tally: Tally::default(), want: String::new(), fill };
    for places in 0..4 {
        for x in [0.0, -0.0, f64::MIN_POSITIVE, f64::MAX, f64::INFINITY, -f64::INFINITY, f64::NAN, -1.0, -f64::MIN_POSITIVE] {
            compare.number(x, places);
        }
        for exponent in 0..2047u64 {
            compare.neighbours(f64::from_bits(exponent << 52), places);
        }
        for eighths in 0..100_000u64 {
            compare.taken(eighths as f64 / 8.0, places);
            compare.taken(eighths as f64 / 16.0, places);
        }
    }
    for room in 0..24 {
        compare.refused(1.5, 2, room);
    }
    for places in 4..40 {
        compare.refused(1.5, places, ROOM);
    }
    compare.refused(1.5, u32::MAX, ROOM);
    for _ in 0..18_000 * scale {
        for places in 0..4usize {
            let ten = 10u64.pow(places as u32) as f64;
            let length = random.float(20, 14);
            compare.taken(length, places);
            let thousandths = random.below(100_000_000) as f64 / 1000.0;
            compare.taken(thousandths, places);
            // an exact half where it can be one, and the f64 beside it
            compare.neighbours((random.below(1 << 40) as f64 + 0.5) / ten, places);
            compare.taken(random.below(1 << 40) as f64 / (1u64 << random.below(20)) as f64, places);
            compare.number(random.float(70, 70), places);
            compare.number(f64::from_bits(random.next()), places);
        }
    }
    compare.tally
}
