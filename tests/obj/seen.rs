//! What the comparison is to see, and how often it did.
use crate::back::NONE;
use common::obj_reader::{Part, JOB};
use std::collections::BTreeMap;

/// How often each has to occur in a whole run.
const RAREST: u64 = 100;
/// But for these, each of which costs much.
const LEAST: [(&str, u64); 6] = [
    ("the check refuses 9", 20),
    ("16,384 vertices", 20),
    ("16,385 vertices", 5),
    ("4,096 polygons", 20),
    ("4,097 polygons", 5),
    ("over 16,384 vertices defined", 20),
];

const OTHERS: [&str; 13] = [
    "an empty text",
    "no line feed at the end",
    "a carriage return",
    "a tab",
    "a space at a line's start",
    "a number of 40 digits",
    "no faces",
    "64 corners",
    "a job of 127 bytes",
    "a job of 129 bytes",
    "a byte too few",
    "just enough",
    "more than enough",
];

const ANSWERS: [u32; 6] = [0, 3, 5, 14, 15, 16];
const CHECKED: [u32; 5] = [NONE, 5, 6, 8, 9];

fn answer(number: u32) -> String {
    format!("answer {number}")
}

fn checked(number: u32) -> String {
    if number == NONE {
        "the check refuses nothing".into()
    } else {
        format!("the check refuses {number}")
    }
}

pub struct Seen(BTreeMap<String, u64>);

impl Seen {
    /// Everything that is to occur, not yet seen.
    pub fn wanted() -> Seen {
        let names = ANSWERS.iter().map(|n| answer(*n)).chain(CHECKED.iter().map(|n| checked(*n)));
        let others = OTHERS.iter().copied().chain(LEAST.map(|(name, _)| name)).map(String::from);
        Seen(names.chain(others).map(|name| (name, 0)).collect())
    }

    fn add(&mut self, what: &str, is_so: bool) {
        *self.0.get_mut(what).unwrap_or_else(|| panic!("{what} is not in the list")) += u64::from(is_so);
    }

    pub fn answer(&mut self, number: u32) {
        self.add(&answer(number), true);
    }

    pub fn checked(&mut self, number: u32) {
        self.add(&checked(number), true);
    }

    /// A text, by the plain reader's answer.
    pub fn text(&mut self, text: &[u8], part: Option<&Part>) {
        self.add("an empty text", text.is_empty());
        self.add("no line feed at the end", text.last().is_some_and(|b| *b != b'\n'));
        self.add("a carriage return", text.contains(&b'\r'));
        self.add("a tab", text.contains(&b'\t'));
        self.add("a space at a line's start", text.first() == Some(&b' ') || text.windows(2).any(|w| w == b"\n "));
        self.add("a number of 40 digits", text.split(|b| !b.is_ascii_digit()).any(|digits| digits.len() >= 40));
        let Some(part) = part else { return };
        let (v, p) = (part.corners.len(), part.faces.len());
        self.add("no faces", p == 0);
        self.add("64 corners", part.faces.iter().any(|f| f.1 == 64));
        self.add("16,384 vertices", v == 16_384);
        self.add("16,385 vertices", v == 16_385);
        self.add("4,096 polygons", p == 4_096);
        self.add("4,097 polygons", p == 4_097);
        let defined = || text.split(|b| *b == b'\n').filter(|line| line.first() == Some(&b'v')).count();
        self.add("over 16,384 vertices defined", text.len() > 16_384 * 7 && defined() > 16_384);
    }

    /// What a call is lent, for a part that has room in a part file.
    pub fn call(&mut self, job: usize, room: usize, part: &Part) {
        self.add("a job of 127 bytes", job == 127);
        self.add("a job of 129 bytes", job == 129);
        self.add("a byte too few", job == JOB && room + 1 == part.size());
        self.add("just enough", job == JOB && room == part.size());
        self.add("more than enough", job == JOB && room > part.size());
    }

    pub fn and(mut self, other: Seen) -> Seen {
        other.0.iter().for_each(|(name, count)| *self.0.get_mut(name).expect("the same list") += count);
        self
    }

    pub fn text_of(&self) -> String {
        self.0.iter().map(|(name, count)| format!("{name}: {count}")).collect::<Vec<_>>().join("; ")
    }

    pub fn too_rare(&self) -> Vec<&str> {
        let least = |name: &str| LEAST.iter().find(|(what, _)| *what == name).map_or(RAREST, |(_, least)| *least);
        self.0.iter().filter(|(name, count)| **count < least(name)).map(|(name, _)| name.as_str()).collect()
    }
}
