//! The fixed list that the program replay_numbers replays: `list patterns` prints its standard input, `list answers` what Rust says of each:
//! the pattern of the root and the decimals with 0 to 3 places. It needs nothing of Gablemadder.
use common::random::Random;

fn patterns() -> Vec<u64> {
    let mut list: Vec<u64> = Vec::new();
    // the readings at the edge, and what is refused
    let limit = (1u64 << 60) as f64;
    for x in [0.125, 0.375, 0.25, 2.5, 1.005, 4.0, 2.0, -0.0, 0.0, 1.0, 0.5, 1.5, 0.0005, 0.0015, 0.4, 0.8, limit, -1.0, 1e300] {
        list.push(f64::to_bits(x));
    }
    list.extend([f64::INFINITY, f64::NEG_INFINITY, f64::MAX, f64::MIN_POSITIVE].map(f64::to_bits));
    // each side of a power of two, of the smallest number, of an infinity and of minus zero
    for bits in [1u64, 1 << 52, 1 << 63, 0x7ff0_0000_0000_0000, limit.to_bits(), 1023 << 52, 1024 << 52, 1025 << 52] {
        list.extend([bits - 1, bits, bits + 1]);
    }
    list.extend([0x7ff8_0000_0000_0000, 0xfff8_0000_0000_0000, u64::MAX]);
    let mut random = Random(6);
    for _ in 0..40 {
        list.push(random.next());
        list.push(random.next() >> (12 + random.below(52)));
        list.push(random.float(30, 62).to_bits());
        let whole = random.below(1 << 26) as f64;
        let square = (whole * whole).to_bits();
        list.extend([square.saturating_sub(1), square, square + 1]);
        // exact halves of the last digit, and the f64 beside them
        let half = ((random.below(1 << 20) as f64 + 0.5) / 4.0).to_bits();
        list.extend([half - 1, half, half + 1]);
        let half = ((random.below(1 << 20) as f64 + 0.5) / 100.0).to_bits();
        list.extend([half - 1, half, half + 1]);
    }
    list
}

fn answer(bits: u64) -> String {
    let x = f64::from_bits(bits);
    // as text: the compiler may take any NaN for any other
    let mut line = if x.is_nan() || x < 0.0 { String::from("7ff8000000000000") } else { format!("{:016x}", x.sqrt().to_bits()) };
    for places in 0..4 {
        if x >= 0.0 && x < (1u64 << 60) as f64 {
            line += &format!(" {:.*}", places, x.abs());
        } else {
            line += " refused 13";
        }
    }
    line
}

fn main() {
    let answers = std::env::args().any(|a| a == "answers");
    for bits in patterns() {
        if answers {
            println!("{}", answer(bits));
        } else {
            println!("{bits:016x}");
        }
    }
}
