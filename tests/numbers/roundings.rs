//! `round` and `as i64`, `ceil` and `as usize`, `min`, `max`, `abs` and the sine table against Rust's own.
use common::gablemadder;
use common::random::Random;
use common::tally::Tally;

fn one(tally: &mut Tally, x: f64) {
    let got = gablemadder::round_i64(x);
    tally.check(got == x.round() as i64, || format!("round of {x:e} is {got}"));
    let got = gablemadder::ceil_usize(x);
    tally.check(got == x.ceil() as usize, || format!("ceil of {x:e} is {got}"));
    let got = gablemadder::abs(x);
    tally.check(got.to_bits() == x.abs().to_bits() || x.is_nan() && got.is_nan(), || format!("abs of {x:e} is {got:e}"));
}

/// Where Rust leaves the sign of a zero open, the first operand stays.
fn two(tally: &mut Tally, a: f64, b: f64) {
    let zeros = a == 0.0 && b == 0.0;
    for (name, got, rust) in [("min", gablemadder::min(a, b), a.min(b)), ("max", gablemadder::max(a, b), a.max(b))] {
        let want = if zeros { a } else { rust };
        let same = got.to_bits() == want.to_bits() || want.is_nan() && got.is_nan();
        tally.check(same, || format!("{name} of {a:e} and {b:e} is {got:e}"));
    }
}

fn sines(tally: &mut Tally) {
    let scale = (1u64 << 50) as f64;
    for tenths in 0..=900u32 {
        let entry = gablemadder::sine_entry(tenths);
        let exact = (tenths as f64 / 10.0).to_radians().sin() * scale;
        tally.check((entry as f64 - exact).abs() < 0.75, || format!("sine entry {tenths} is {entry}"));
        let sine = gablemadder::sine(tenths);
        tally.check(sine == entry as f64 / scale, || format!("sine {tenths} is {sine:e}"));
    }
    for tenths in [901, 1000, u32::MAX] {
        tally.check(gablemadder::sine(tenths) == 1.0, || format!("sine {tenths} is not that of 900"));
    }
}

pub fn run(scale: u64) -> Tally {
    let mut tally = Tally::default();
    let mut random = Random(4);
    sines(&mut tally);
    let special = [0.0, -0.0, 0.5, -0.5, 1.5, 2.5, 1.0, f64::MIN_POSITIVE, f64::MAX, f64::INFINITY, -f64::INFINITY, f64::NAN, -1.0];
    for a in special {
        for b in special {
            two(&mut tally, a, b);
        }
    }
    for exponent in 0..2048u64 {
        for sign in [0, 1 << 63] {
            let bits = (exponent << 52) | sign;
            for near in [bits, bits + 1, bits.wrapping_sub(1), bits | (1 << 51)] {
                one(&mut tally, f64::from_bits(near));
            }
        }
    }
    for _ in 0..150_000 * scale {
        let x = f64::from_bits(random.next());
        one(&mut tally, x);
        one(&mut tally, random.float(40, 66));
        // a half, and the f64 beside it
        let half = (random.next() as i64 >> random.below(40).max(12)) as f64 + 0.5;
        one(&mut tally, half);
        one(&mut tally, f64::from_bits(half.to_bits() + 1));
        one(&mut tally, f64::from_bits(half.to_bits() - 1));
        two(&mut tally, x, f64::from_bits(random.next()));
        two(&mut tally, x, -x);
    }
    tally
}
