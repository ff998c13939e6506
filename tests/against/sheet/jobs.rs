//! Jobs for sheet metal: what a sheet can be made of, names with and without what the size of a hole hangs on, and what is not formed.
use common::field::{set_real, set_word};
use common::random::Random;
use common::sample;
use common::shapes::pick;

/// The two words that a name is looked through for.
pub const WORDS: [&str; 2] = ["Stainless", "304"];

/// The words whole, cut, at either end, inside others, one after a false start, and in all 40 bytes.
const NAMES: [&str; 33] = [
    "Stainless",
    "304",
    "Stainless 316",
    "AISI 304",
    "1304|x",
    "X5CrNi18-10 (1.4301, 304)",
    "StStainless",
    "StainlesStainless",
    "33304",
    "3043",
    "30 304",
    "3030304",
    "Steel that is called Stainless",
    "A name of forty bytes that is Stainless.",
    "At the end of its forty bytes: Stainless",
    "At the end of its forty bytes: Stainles.",
    "A name of forty bytes of which are   304",
    "A name of forty bytes of which are   30.",
    "304 at the start of a name of 40 bytes..",
    "Stainless at the start of 40 bytes .....",
    "stainless",
    "STAINLESS",
    "Stainles",
    "tainless",
    "Stainles s",
    "30",
    "04",
    "3 04",
    "30 4",
    "340",
    "Steel|mild",
    "A name that fills all of the forty bytes",
    "S",
];

/// Of one of the words a part and then the rest of the other, or the word with one byte changed.
fn spoiled(random: &mut Random) -> Vec<u8> {
    let mut name: Vec<u8> = (0..random.below(31)).map(|_| byte(random)).collect();
    let word = pick(random, &WORDS).as_bytes();
    match random.below(3) {
        0 => name.extend(&word[..random.below(word.len() as u64) as usize]),
        1 => {
            let at = name.len() + random.below(word.len() as u64) as usize;
            name.extend(word);
            name[at] = byte(random);
        }
        _ => name.extend(word),
    }
    name.extend((0..random.below(4)).map(|_| byte(random)));
    name.truncate(40);
    if name.is_empty() {
        name.push(b' ');
    }
    name
}

fn byte(random: &mut Random) -> u8 {
    let any = 0x20 + random.below(0x5f) as u8;
    pick(random, &[any, any, b'3', b'0', b'4', b'S', b't', b'|'])
}

/// In thousandths; 0 leaves no radius tight, the largest nearly all.
const RATIOS: [u32; 14] = [0, 1, 250, 500, 999, 1000, 1000, 1001, 1200, 1500, 1500, 2000, 3333, 100_000];

/// Of any process; most often of a metal with a ratio, so that the later rules have their turn.
pub fn draw(random: &mut Random) -> Vec<u8> {
    let process = random.below(5) as u32;
    let others = pick(random, &[0, 2, 4, 6]);
    let name = if random.below(4) == 0 { spoiled(random) } else { pick(random, &NAMES).as_bytes().to_vec() };
    let (flags, class) = match random.below(20) {
        0..=3 => (0, 0),
        4 => (9, 1),
        5 => (1, random.below(2) as u32),
        _ => (9, 0),
    };
    let mut job = sample::job(process, flags | others, &name);
    if flags & 1 == 1 {
        set_word(&mut job, 68, class);
        set_real(&mut job, 80, pick(random, &[0.0, 0.5, -1.0, 1e4]));
    }
    if flags & 8 == 8 {
        let any = random.below(5000) as u32;
        set_word(&mut job, 72, pick(random, &RATIOS));
        if random.below(8) == 0 {
            set_word(&mut job, 72, any);
        }
    }
    job
}
