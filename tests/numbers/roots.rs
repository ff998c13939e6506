//! Square roots against Rust's `sqrt`. Where Rust gives a NaN, the pattern has to be 7FF8000000000000.
use common::gablemadder;
use common::random::Random;
use common::tally::Tally;

fn check(tally: &mut Tally, bits: u64) {
    let x = f64::from_bits(bits);
    let got = gablemadder::sqrt_bits(bits);
    let root = gablemadder::sqrt(x);
    // by the operand: the compiler may take any NaN for any other in a result
    if x.is_nan() || x < 0.0 {
        let same = got == 0x7ff8_0000_0000_0000 && root.is_nan();
        tally.check_rule(same, || format!("sqrt of {bits:016x} is {got:016x} as bits and {root:e}, and no NaN"));
        return;
    }
    let want = x.sqrt().to_bits();
    let same = got == want && root.to_bits() == want;
    tally.check(same, || format!("sqrt of {bits:016x} is {got:016x} as bits and {:016x}, not {want:016x}", root.to_bits()));
}

fn neighbours(tally: &mut Tally, bits: u64) {
    for near in bits.saturating_sub(2)..=bits.saturating_add(2) {
        check(tally, near);
    }
}

/// The f64 nearest below the square of the middle between two f64, and the next: the hardest to round.
fn halfway(tally: &mut Tally, random: &mut Random) {
    let r = (1u128 << 52) + (random.next() >> 12) as u128;
    let m = ((r * r + r) >> 52) as u64;
    let (q, odd) = if m < 1 << 53 { (m, 0) } else { (m >> 1, 1) };
    let field = 1 + 2 * random.below(1022) + odd;
    let bits = (field << 52) + (q & 0x000f_ffff_ffff_ffff);
    check(tally, bits);
    check(tally, bits + 1);
}

pub fn run(scale: u64) -> Tally {
    let mut tally = Tally::default();
    let mut random = Random(1);
    for exponent in 0..2048u64 {
        neighbours(&mut tally, exponent << 52);
        neighbours(&mut tally, (exponent << 52) | (1 << 63));
        for shift in 0..52 {
            check(&mut tally, (exponent << 52) | (1 << shift));
        }
    }
    for n in 0..200_000u64 {
        neighbours(&mut tally, ((n * n) as f64).to_bits());
        check(&mut tally, n);
    }
    for _ in 0..1_100_000 * scale {
        check(&mut tally, random.next());
        check(&mut tally, random.next() >> 1);
    }
    for _ in 0..100_000 * scale {
        let y = f64::from_bits(random.next() >> 1);
        neighbours(&mut tally, (y * y).to_bits());
        let whole = (random.next() >> 38) as f64;
        neighbours(&mut tally, (whole * whole).to_bits());
        check(&mut tally, random.next() >> (12 + random.below(52)));
        check(&mut tally, random.next() | (1 << 63));
        check(&mut tally, random.next() | 0x7ff0_0000_0000_0000);
        halfway(&mut tally, &mut random);
    }
    tally
}
