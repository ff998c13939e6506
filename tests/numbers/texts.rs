//! Bytes, whole numbers, hex digits, thousandths and decimals put at a position: what is written, what is not, and the next position.
//! Past the end nothing is written and the position still counts, so an empty slice measures.
use common::gablemadder;
use common::random::Random;
use common::tally::Tally;

const ROOM: usize = 64;

fn check(tally: &mut Tally, random: &mut Random, text: &str, put: impl Fn(&mut [u8], usize) -> usize) {
    let mut before = [0; ROOM];
    before.fill_with(|| random.next() as u8);
    let room = random.below(ROOM as u64 + 1) as usize;
    let at = random.below(ROOM as u64 + 8) as usize;
    let mut after = before;
    let next = put(&mut after[..room], at);
    let mut want = before;
    for (i, byte) in text.bytes().enumerate() {
        if at + i < room {
            want[at + i] = byte;
        }
    }
    let measured = put(&mut [], 0);
    let far = put(&mut after[..0], usize::MAX);
    let same = after == want && next == at + text.len() && measured == text.len() && far >= 1 << 63;
    tally.check(same, || format!("{text:?} at {at} of {room} bytes: next {next}, measured {measured}"));
}

pub fn run(scale: u64) -> Tally {
    let mut tally = Tally::default();
    let mut random = Random(3);
    for n in 0..=100_000u64 {
        let ratio = n as f64 / 1000.0;
        check(&mut tally, &mut random, &format!("{ratio}"), |out, at| gablemadder::put_thousandths(out, at, n));
    }
    for _ in 0..40_000 * scale {
        let n = random.next() >> random.below(64);
        check(&mut tally, &mut random, &n.to_string(), |out, at| gablemadder::put_number(out, at, n));
        check(&mut tally, &mut random, &format!("{n:016x}"), |out, at| gablemadder::put_hex(out, at, n));
        let whole = n / 1000;
        let rest = format!("{:03}", n % 1000);
        let rest = rest.trim_end_matches('0');
        let point = if rest.is_empty() { "" } else { "." };
        check(&mut tally, &mut random, &format!("{whole}{point}{rest}"), |out, at| gablemadder::put_thousandths(out, at, n));
        let x = f64::from_bits(random.next());
        let x = if random.below(4) == 0 { x } else { random.float(30, 40) };
        let places = random.below(5) as u32;
        let taken = places < 4 && x >= 0.0 && x < (1u64 << 60) as f64;
        let text = if taken { format!("{:.*}", places as usize, x.abs()) } else { String::new() };
        check(&mut tally, &mut random, &text, |out, at| gablemadder::put_decimal(out, at, x, places));
        check(&mut tally, &mut random, &text, |out, at| gablemadder::put_bytes(out, at, text.as_bytes()));
    }
    tally
}
