//! Texts drawn line by line: decimals and numbers of every form, faces and face indices anywhere, and now and then a line that is refused.
use common::random::Random;
use common::shapes::pick;

/// What is written in one text, and how.
pub struct Draw<'a> {
    pub random: &'a mut Random,
    pub text: Vec<u8>,
    /// How many vertices are defined.
    pub defined: u64,
    /// How often numbers have zeros in front, or more than one space: one in so many.
    rare: u64,
}

/// A text of some faces, from none on.
pub fn text(random: &mut Random) -> Vec<u8> {
    let rare = pick(random, &[2, 8, 1_000_000]);
    let most = pick(random, &[1, 6, 24, 24, 60]);
    let mut draw = Draw { random, text: Vec::new(), defined: 0, rare };
    let lines = draw.below(most);
    let wrong = if draw.below(4) == 0 { draw.below(lines + 1) } else { u64::MAX };
    for number in 0..lines {
        if number == wrong {
            draw.wrong_line();
        } else {
            draw.line();
        }
    }
    if draw.below(4) == 0 {
        draw.text.pop();
    }
    draw.text
}

/// Lines that are refused with 14, whatever stands before them.
pub const WRONG: &[&[u8]] = &[
    b" v 1 2 3",
    b"v 1 2 3 ",
    b"v  ",
    b"v",
    b"f",
    b"g",
    b"v ",
    b" ",
    b"  ",
    b"\t",
    b"\r",
    b"\0",
    b" # 1",
    b"v\t1 2 3",
    b"v 1\t2 3",
    b"v 1 2 3\t",
    b"v 1 2 3\r",
    b"f 1 1 1\r",
    b"g 1\r",
    b"\rv 1 2 3",
    b"v 1 2",
    b"v 1 2 3 4",
    b"v 1 2 3 1.0",
    b"v 1 2 3 # 4",
    b"v1 2 3",
    b"v1 2 3 4",
    b"vn 1 2 3",
    b"vt 1 2 3",
    b"V 1 2 3",
    b"vv 1 2 3",
    b"v 1 2 1e3",
    b"v 1 2 1E3",
    b"v 1 2 e",
    b"v 1 2 nan",
    b"v 1 2 inf",
    b"v 1 2 -inf",
    b"v 1 2 .",
    b"v 1 2 +",
    b"v 1 2 -",
    b"v 1 2 +.",
    b"v 1 2 -.",
    b"v 1 2 1.2.3",
    b"v 1 2 1..2",
    b"v 1 2 ..5",
    b"v 1 2 --1",
    b"v 1 2 +-1",
    b"v 1 2 1-",
    b"v 1 2 1+2",
    b"v 1 2 .-1",
    b"v 1 2 1,5",
    b"v 1 2 1_5",
    b"v 1 2 0x5",
    b"v 1 2 1f",
    b"v 1 2 \xd9\xa1",
    b"v 1 2 1\0",
    b"v 1 2 :",
    b"v 1 2 /",
    b"v 1 2 1234567890123456",
    b"v 1 2 -0000000000000000",
    b"v 1 2 +00000000.00000000",
    b"v 1 2 .1234567890123456",
    b"v 1 2 1234567890123456.",
    b"f 1 1",
    b"f 0 1 1",
    b"f 1 00 1",
    b"f 1 1 0",
    b"f 1/1 1/1 1/1",
    b"f 1//1 1//1 1//1",
    b"f -1 -1 -1",
    b"f +1 1 1",
    b"f 1.0 1 1",
    b"f 1 1 a",
    b"f 1 1 1 a",
    b"f 1 1 1 ",
    b"f1 1 1",
    b"F 1 1 1",
    b"g 4294967296",
    b"g 00000004294967296",
    b"g 18446744073709551616",
    b"g 9999999999999999999999999999999999999999",
    b"g 1 2",
    b"g name",
    b"g -0",
];

impl Draw<'_> {
    fn below(&mut self, n: u64) -> u64 {
        self.random.below(n)
    }

    fn is_rare(&mut self) -> bool {
        let n = self.rare;
        self.below(n) == 0
    }

    fn line(&mut self) {
        match self.below(16) {
            0 => self.text.extend(b"#"),
            1 => self.comment(),
            2 => {}
            3 | 4 => self.group(),
            5..=10 if self.defined > 0 => self.face(),
            _ => self.vertex(),
        }
        self.text.push(b'\n');
    }

    fn comment(&mut self) {
        let bytes: Vec<u8> = (0..self.below(20)).map(|_| self.random.next() as u8).filter(|b| *b != b'\n').collect();
        self.text.push(b'#');
        self.text.extend(bytes);
    }

    fn spaces(&mut self) {
        let more = if self.is_rare() { 1 + self.below(5) } else { 0 };
        self.text.extend(std::iter::repeat_n(b' ', 1 + more as usize));
    }

    fn vertex(&mut self) {
        self.text.push(b'v');
        for _ in 0..3 {
            self.spaces();
            decimal(self.random, &mut self.text);
        }
        self.defined += 1;
    }

    fn face(&mut self) {
        let count = match self.below(16) {
            0 => 64,
            1 => 3 + self.below(62),
            _ => 3 + self.below(4),
        };
        self.text.push(b'f');
        for _ in 0..count {
            let n = match self.below(8) {
                0 => 1,
                1 => self.defined,
                _ => 1 + self.below(self.defined),
            };
            self.spaces();
            self.number(n as u128);
        }
    }

    fn group(&mut self) {
        let n = match self.below(8) {
            0 => 0,
            1 => u32::MAX as u64,
            2 => self.random.next() >> 32,
            _ => self.below(30),
        };
        self.text.push(b'g');
        self.spaces();
        self.number(n as u128);
    }

    /// With zeros in front, now and then so many that no word holds them.
    fn number(&mut self, n: u128) {
        let zeros = if self.is_rare() { pick(self.random, &[1, 1, 2, 19, 20, 21, 40, 80]) } else { 0 };
        self.text.extend(std::iter::repeat_n(b'0', zeros));
        self.text.extend(n.to_string().bytes());
    }

    /// A line of another form, or a face with a number that is not defined, of any size.
    fn wrong_line(&mut self) {
        if self.below(2) == 0 {
            let line = match self.below(8) {
                0 => [b"f".to_vec(), b" 1".repeat(65 + self.below(3) as usize)].concat(),
                _ => pick(self.random, WRONG).to_vec(),
            };
            self.text.extend(line);
        } else {
            let past = self.defined as u128 + 1;
            let far =
                [past, past, past + 1, 1 << 31, 1 << 32, 1 << 63, (1 << 63) - 1, (1 << 64) - 1, 1 << 64, (1 << 64) + 1, (1 << 65) + 2, u128::MAX];
            let (count, at) = (3 + self.below(62), self.below(3));
            self.text.push(b'f');
            for k in 0..count {
                let n = if k == at { pick(self.random, &far) } else { 1 };
                self.spaces();
                self.number(n);
            }
            // A line that is of another form as well is refused for that.
            if self.below(8) == 0 {
                self.text.extend(pick(self.random, &[&b" x"[..], b" 0", b" "]));
            }
        }
        self.text.push(b'\n');
    }
}

/// A decimal of 1 to 15 digits, with or without a sign and a point.
pub fn decimal(random: &mut Random, text: &mut Vec<u8>) {
    let sign = random.below(4);
    text.extend(match sign {
        0 => &b"-"[..],
        1 if random.below(4) == 0 => b"+",
        _ => b"",
    });
    match random.below(8) {
        // a length as drawings have it
        0..=2 => text.extend(format!("{:.*}", random.below(4) as usize, random.float(10, 13)).bytes()),
        // an f64 written with 15 digits
        3 => of_15_digits(random, text),
        4 => zero(random, text),
        _ => any_digits(random, text),
    }
}

fn of_15_digits(random: &mut Random, text: &mut Vec<u8>) {
    let x = random.float(13, 14);
    let whole = (x.trunc() as u64).to_string().len();
    text.extend(format!("{x:.*}", 15 - whole).bytes());
}

fn zero(random: &mut Random, text: &mut Vec<u8>) {
    let (before, after) = (random.below(8) as usize, random.below(8) as usize);
    text.extend(std::iter::repeat_n(b'0', before + usize::from(before + after == 0)));
    if random.below(2) == 0 {
        text.push(b'.');
    }
    text.extend(std::iter::repeat_n(b'0', after));
}

fn any_digits(random: &mut Random, text: &mut Vec<u8>) {
    let count = match random.below(4) {
        0 => 15,
        _ => 1 + random.below(15),
    };
    let zeros = if random.below(4) == 0 { random.below(count) } else { 0 };
    // one past the last place: no point at all
    let point = match random.below(4) {
        0 => pick(random, &[0, count, count + 1]),
        1 => count.saturating_sub(4),
        _ => random.below(count + 2),
    };
    for k in 0..count {
        if k == point {
            text.push(b'.');
        }
        let digit = if k < zeros { 0 } else { random.below(10) };
        text.push(b'0' + digit as u8);
    }
    if point == count {
        text.push(b'.');
    }
}
