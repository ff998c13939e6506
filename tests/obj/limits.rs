//! Texts at each limit, and every byte at every place of a small one.
use crate::compare::Compare;
use crate::draw::WRONG;

/// Three vertices, of which the first has this for its x, and the face that they make.
fn with_x(x: &str) -> Vec<u8> {
    format!("v {x} 0 0\nv 0 1 0\nv 0 0 1\nf 1 2 3\n").into_bytes()
}

fn digits(n: usize) -> String {
    (0..n).map(|k| char::from(b'1' + (k % 9) as u8)).collect()
}

pub fn run(c: &mut Compare) {
    let mut texts = vec![Vec::new()];
    texts.extend(decimals());
    texts.extend(faces());
    texts.extend(groups());
    texts.extend(wrong_lines());
    for text in texts {
        let shown = || String::from_utf8_lossy(&text).into_owned();
        c.check(&text, shown);
        // without its last line feed, with two, and with carriage returns
        c.check(text.strip_suffix(b"\n").unwrap_or(b"\n"), shown);
        c.check(&[&text[..], b"\n"].concat(), shown);
        let returns: Vec<u8> = text.iter().flat_map(|b| if *b == b'\n' { b"\r\n".to_vec() } else { vec![*b] }).collect();
        c.check(&returns, shown);
    }
    each_byte(c);
}

/// 1 to 17 digits, the point at every place or none, every sign; zeros of both signs.
fn decimals() -> Vec<Vec<u8>> {
    let mut texts = Vec::new();
    for n in 0..=17 {
        for all in [digits(n), "0".repeat(n), "9".repeat(n)] {
            for sign in ["", "+", "-"] {
                texts.push(with_x(&format!("{sign}{all}")));
                texts.extend((0..=n).map(|at| with_x(&format!("{sign}{}.{}", &all[..at], &all[at..]))));
            }
        }
    }
    texts.extend(["0.1", "-0.0", "10000", "10000.0000000001", "9999.99999999999", "-10000.0000000001"].map(with_x));
    texts
}

/// 1 to 67 corners; numbers at the last vertex and past it, with zeros in front.
fn faces() -> Vec<Vec<u8>> {
    let head = "v 0 0 0\nv 1 0 0\nv 0 1 0\n";
    let mut texts: Vec<String> = (0..=67).map(|n| format!("{head}f{}\n", " 1 2 3".repeat(23).split_at(2 * n).0)).collect();
    let numbers = ["3", "4", "0", "00", "03", "04", "4294967295", "4294967296", "4294967297", "9223372036854775807", "9223372036854775808"];
    let more =
        ["18446744073709551615", "18446744073709551616", "18446744073709551617", "18446744073709551619", "340282366920938463463374607431768211457"];
    for n in numbers.into_iter().chain(more) {
        for zeros in [0, 1, 19, 40, 64] {
            texts.push(format!("{head}f 1 2 {}{n}\n", "0".repeat(zeros)));
            texts.push(format!("{head}f {}{n} 2 1 3\n", "0".repeat(zeros)));
        }
    }
    // a vertex that is defined only after the face
    texts.push(format!("{head}f 1 2 4\nv 1 1 0\n"));
    texts.push(format!("{head}f 1 2 3\nv 1 1 0\nf 2 3 4\n"));
    texts.into_iter().map(String::into_bytes).collect()
}

fn groups() -> Vec<Vec<u8>> {
    let head = "v 0 0 0\nv 1 0 0\nv 0 1 0\n";
    let mut texts = Vec::new();
    for n in ["0", "1", "4294967295", "4294967296", "4294967297", "18446744073709551615", "18446744073709551616", "18446744073709551617"] {
        for zeros in [0, 1, 10, 19, 40] {
            texts.push(format!("{head}f 1 2 3\ng {}{n}\nf 1 3 2\ng 7\nf 2 3 1\n", "0".repeat(zeros)));
        }
    }
    texts.into_iter().map(String::into_bytes).collect()
}

/// Each line of another form alone, before and after good lines, and before and after a number that is not defined.
fn wrong_lines() -> Vec<Vec<u8>> {
    let good = &b"v 0 0 0\nv 1 0 0\nv 0 1 0\nf 1 2 3\n"[..];
    let undefined = &b"f 1 2 9\n"[..];
    let mut texts = Vec::new();
    for line in WRONG {
        let line = [line, &b"\n"[..]].concat();
        texts.push(line.clone());
        texts.push([&line[..], good].concat());
        texts.push([good, &line[..]].concat());
        texts.push([good, &line[..], undefined].concat());
        texts.push([good, undefined, &line[..]].concat());
    }
    texts
}

/// Every byte in place of every one, and between any two; every cut; every byte left out.
fn each_byte(c: &mut Compare) {
    let text = b"# a\nv 0 0 0\nv 1.50 -0 +2\ng 7\nv  0 1 .5\nf 1 2 3\nf 3 002 1";
    for at in 0..=text.len() {
        for byte in 0..=255 {
            let mut changed = text.to_vec();
            changed.insert(at, byte);
            c.check(&changed, || format!("byte {byte} between at {at}"));
            if at < text.len() {
                changed.remove(at + 1);
                c.check(&changed, || format!("byte {byte} at {at}"));
            }
        }
        c.check(&text[..at], || format!("the first {at} bytes"));
        c.check(&text[at..], || format!("without the first {at} bytes"));
        if at < text.len() {
            c.check(&[&text[..at], &text[at + 1..]].concat(), || format!("without byte {at}"));
        }
    }
}
