//! Long texts: as many corners and polygons as a part file has room for and one more, more vertices than that, used from anywhere, and many decimals.
use crate::compare::Compare;
use crate::draw::decimal;
use common::random::Random;
use common::shapes::pick;
use std::fmt::Write;

/// Faces of these many corners over so many vertices, by their numbers in turn, with an index for each so many.
fn grid(vertices: usize, counts: &[usize], every: usize) -> Vec<u8> {
    let mut text = String::new();
    for k in 0..vertices {
        let _ = writeln!(text, "v {} {}.{} {}", k % 100, k / 100, k % 7, (k * k) % 89);
    }
    let mut next = 0;
    for (number, count) in counts.iter().enumerate() {
        if number % every == 0 {
            let _ = writeln!(text, "g {}", number / every);
        }
        text.push('f');
        for _ in 0..*count {
            let _ = write!(text, " {}", next % vertices + 1);
            next += 1;
        }
        text.push('\n');
    }
    text.into_bytes()
}

/// V of 16,384 and 16,385, P of 4,096 and 4,097, each with the other below, at and past its limit; then a line that is refused.
pub fn sizes(c: &mut Compare) {
    let mut counts: Vec<(&str, Vec<usize>)> = vec![
        ("4,096 of 4", vec![4; 4096]),
        ("4,096 of 3", vec![3; 4096]),
        ("4,097 of 3", vec![3; 4097]),
        ("4,097 of 4", vec![4; 4097]),
        ("256 of 64", vec![64; 256]),
        ("5,461 of 3", vec![3; 5461]),
        ("5,462 of 3", vec![3; 5462]),
        ("20,000 of 3", vec![3; 20_000]),
        ("2,000 of 64", vec![64; 2_000]),
    ];
    counts.push(("16,385", [vec![64; 255], vec![62, 3]].concat()));
    counts.push(("16,384", [vec![64; 255], vec![61, 3]].concat()));
    counts.push(("16,383", [vec![64; 255], vec![60, 3]].concat()));
    counts.push(("16,385 in 4,096", [vec![4; 4095], vec![5]].concat()));
    for (name, counts) in counts {
        for vertices in [3, 64, 5_000] {
            let text = grid(vertices, &counts, 5);
            c.check(&text, || format!("faces {name}, {vertices} vertices"));
            for (line, number) in [(&b"f 1 2\n"[..], 14), (b"f 1 2 9999999\n", 15)] {
                let answer = c.check(&[&text[..], line].concat(), || format!("faces {name}, {vertices} vertices, a line refused"));
                assert_eq!(answer, number);
            }
        }
    }
}

/// About as many faces as the check takes.
pub fn faces(c: &mut Compare, random: &mut Random, times: u64) {
    for _ in 0..times {
        let (faces, vertices) = (1_015 + random.below(20) as usize, 3 + random.below(60) as usize);
        c.check(&grid(vertices, &vec![3; faces], 1), || format!("{faces} faces, {vertices} vertices"));
    }
}

/// More vertices than a part file has, with faces between and after them that use the first, the last, the latest or any.
pub fn windows(c: &mut Compare, random: &mut Random, times: u64) {
    let most = [1_000, 16_383, 16_384, 16_385, 20_000, 32_767, 32_768, 32_769, 49_153, 70_000];
    for (turn, most) in (0..times).flat_map(|turn| most.map(|n| (turn, n))) {
        let (mut text, mut corners) = (Vec::new(), 0);
        let every = pick(random, &[1, 40, 4_000, 1_000_000]);
        for defined in 1..=most {
            text.push(b'v');
            for _ in 0..3 {
                text.push(b' ');
                decimal(random, &mut text);
            }
            text.push(b'\n');
            if defined == most || random.below(every) == 0 {
                let faces = if defined == most { 300 } else { 1 };
                for _ in 0..faces {
                    corners += face(random, &mut text, defined, 16_384 - corners);
                }
            }
        }
        c.check(&text, || format!("windows, turn {turn}, {most} vertices"));
    }
}

/// A face of at most so many corners, where there is room for one; how many it has.
fn face(random: &mut Random, text: &mut Vec<u8>, defined: u64, room: u64) -> u64 {
    if room < 3 {
        return 0;
    }
    let count = (3 + random.below(62)).min(room);
    text.push(b'f');
    let kind = random.below(4);
    for k in 0..count {
        let n = match kind {
            0 => 1 + random.below(defined.min(9)),
            1 => defined - random.below(defined.min(9)),
            2 => pick(random, &[1, defined, 16_384.min(defined), 16_385.min(defined), 32_768.min(defined), 32_769.min(defined)]),
            _ => 1 + (random.next() + k) % defined,
        };
        text.extend(format!(" {n}").bytes());
    }
    text.push(b'\n');
    count
}

/// As many decimals as a part file has room for, each used once; how many those are.
pub fn decimals(c: &mut Compare, random: &mut Random, number: u64) -> u64 {
    let mut text = Vec::new();
    for _ in 0..16_384 {
        text.push(b'v');
        for _ in 0..3 {
            text.push(b' ');
            decimal(random, &mut text);
        }
        text.push(b'\n');
    }
    for face in 0..256 {
        text.push(b'f');
        (1..=64).for_each(|k| text.extend(format!(" {}", 64 * face + k).bytes()));
        text.push(b'\n');
    }
    match c.check(&text, || format!("decimals {number}")) {
        0 => 3 * 16_384,
        _ => 0,
    }
}
