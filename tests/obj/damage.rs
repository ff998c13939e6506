//! Texts damaged in a place or two.
use common::random::Random;
use common::shapes::pick;

/// What a byte is made, most often.
const BYTES: &[u8] = b"0123456789 \n\r\t.+-#vfg/eE,_:\0\x0b\x0c\x1f\x21\x7f\x80\xa0\xffVFGn";

pub fn damage(random: &mut Random, text: &mut Vec<u8>) {
    for _ in 0..pick(random, &[1, 1, 1, 2, 3]) {
        once(random, text);
    }
}

fn once(random: &mut Random, text: &mut Vec<u8>) {
    let n = text.len() as u64;
    let byte = if random.below(8) == 0 { random.next() as u8 } else { pick(random, BYTES) };
    if n == 0 {
        return text.push(byte);
    }
    let at = random.below(n) as usize;
    match random.below(10) {
        0..=3 => text[at] = byte,
        4 => text.insert(at, byte),
        5 => drop(text.remove(at)),
        6 => text[at] ^= 1 << random.below(8),
        7 => text.truncate(at),
        8 => lines(random, text),
        _ => text.insert(at, text[at]),
    }
}

/// A line left out, twice, or in another place.
fn lines(random: &mut Random, text: &mut Vec<u8>) {
    let mut lines: Vec<Vec<u8>> = text.split(|b| *b == b'\n').map(<[u8]>::to_vec).collect();
    let (from, to) = (random.below(lines.len() as u64) as usize, random.below(lines.len() as u64) as usize);
    let line = if random.below(3) == 0 { lines[from].clone() } else { lines.remove(from) };
    if random.below(3) != 0 {
        lines.insert(to.min(lines.len()), line);
    }
    *text = lines.join(&b'\n');
}
