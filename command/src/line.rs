//! The lines of a part's text: words with their columns, and what a word has to be.
use crate::range::{self, Range};
use std::fmt::{self, Display, Formatter};

/// The place where a text is wrong, from 1, what was expected there and what stands there.
#[derive(Clone, Debug, PartialEq)]
pub struct Wrong {
    pub line: usize,
    pub column: usize,
    pub expected: String,
    pub found: String,
}

impl Display for Wrong {
    fn fmt(&self, f: &mut Formatter) -> fmt::Result {
        write!(f, "{}:{}: expected {}, found {}", self.line, self.column, self.expected, self.found)
    }
}

#[derive(Clone, Copy, Debug, PartialEq)]
struct Word<'a> {
    column: usize,
    /// With its quotes, where it has them.
    text: &'a str,
}

/// A line with words on it, of which the first `used` are read.
#[derive(Clone, Debug)]
pub struct Line<'a> {
    pub number: usize,
    words: Vec<Word<'a>>,
    used: usize,
    /// The column behind the last word.
    end: usize,
    /// The line past the last one, which has no words.
    is_end: bool,
}

/// The lines of a text that have words, and one more that stands for its end.
pub fn lines(text: &str) -> Result<Vec<Line<'_>>, Wrong> {
    let mut found = Vec::new();
    let mut count = 0;
    for line in text.lines() {
        count += 1;
        let words = words(line, count)?;
        if let Some(last) = words.last() {
            let end = last.column + last.text.chars().count();
            found.push(Line { number: count, words, used: 0, end, is_end: false });
        }
    }
    found.push(Line { number: count + 1, words: Vec::new(), used: 0, end: 1, is_end: true });
    Ok(found)
}

fn words(line: &str, number: usize) -> Result<Vec<Word<'_>>, Wrong> {
    let mut words = Vec::new();
    let mut rest = line;
    let mut column = 1;
    loop {
        let blanks = rest.len() - rest.trim_start_matches([' ', '\t']).len();
        rest = &rest[blanks..];
        column += blanks;
        if rest.is_empty() || rest.starts_with('#') {
            return Ok(words);
        }
        let length = if rest.starts_with('"') { quoted(rest) } else { plain(rest) };
        let Some(length) = length else {
            let expected = "a quote at the end of the name".to_string();
            return Err(Wrong { line: number, column: column + rest.chars().count(), expected, found: "the end of the line".to_string() });
        };
        let (text, after) = rest.split_at(length);
        words.push(Word { column, text });
        column += text.chars().count();
        rest = after;
    }
}

/// Bytes of the word that the text begins with.
fn plain(text: &str) -> Option<usize> {
    Some(text.find([' ', '\t', '#']).unwrap_or(text.len()))
}

/// The same of a word in quotes, if it ends.
fn quoted(text: &str) -> Option<usize> {
    let mut escaped = false;
    for (at, c) in text.char_indices().skip(1) {
        match c {
            _ if escaped => escaped = false,
            '\\' => escaped = true,
            '"' => return Some(at + 1),
            _ => {}
        }
    }
    None
}

impl<'a> Line<'a> {
    fn peek(&self) -> Option<Word<'a>> {
        self.words.get(self.used).copied()
    }

    /// What is wrong where the next word stands.
    pub fn wrong(&self, expected: impl Into<String>) -> Wrong {
        let column = self.peek().map_or(self.end, |word| word.column);
        let found = match self.peek() {
            Some(word) => shown(word.text),
            None if self.is_end => "the end of the text".to_string(),
            None => "the end of the line".to_string(),
        };
        Wrong { line: self.number, column, expected: expected.into(), found }
    }

    /// Whether the next word is this one.
    pub fn is(&self, name: &str) -> bool {
        self.peek().is_some_and(|word| word.text == name)
    }

    /// Whether the line is the text's end.
    pub fn is_text_end(&self) -> bool {
        self.is_end
    }

    /// Whether the next word looks like a number.
    pub fn is_number(&self) -> bool {
        self.peek().is_some_and(|word| word.text.starts_with(|c: char| c.is_ascii_digit() || "+-.".contains(c)))
    }

    /// Reads the next word by `read`, or says what was expected.
    fn read<T>(&mut self, expected: &str, read: impl FnOnce(&'a str) -> Option<T>) -> Result<T, Wrong> {
        let value = self.peek().and_then(|word| read(word.text)).ok_or_else(|| self.wrong(expected))?;
        self.used += 1;
        Ok(value)
    }

    pub fn keyword(&mut self, name: &str) -> Result<(), Wrong> {
        self.read(&format!("\"{name}\""), |text| (text == name).then_some(()))
    }

    /// One of these, by its name.
    pub fn one_of<T: Copy>(&mut self, all: &[T], name: impl Fn(T) -> &'static str) -> Result<T, Wrong> {
        let names: Vec<String> = all.iter().map(|&value| format!("\"{}\"", name(value))).collect();
        self.read(&either(&names), |text| all.iter().copied().find(|&value| name(value) == text))
    }

    pub fn real(&mut self, range: Range) -> Result<f64, Wrong> {
        let Some(x) = self.peek().and_then(|word| number(word.text)) else {
            return Err(self.wrong("a number"));
        };
        self.read(&format!("a number {range}"), |_| range.has(x).then_some(x))
    }

    pub fn point(&mut self) -> Result<[f64; 3], Wrong> {
        Ok([self.real(range::COORDINATE)?, self.real(range::COORDINATE)?, self.real(range::COORDINATE)?])
    }

    pub fn direction(&mut self) -> Result<[f64; 3], Wrong> {
        let start = self.used;
        let way = [self.real(range::COMPONENT)?, self.real(range::COMPONENT)?, self.real(range::COMPONENT)?];
        if range::LENGTH_SQ.has(range::length_sq(way)) {
            return Ok(way);
        }
        let found = format!("one of length {:?}", range::length_sq(way).sqrt());
        Err(Wrong { line: self.number, column: self.words[start].column, expected: "a direction of length 0.5 to 2".to_string(), found })
    }

    /// Two whole numbers with a colon between.
    pub fn face(&mut self) -> Result<(u32, u32), Wrong> {
        self.read("feature and number of the face, such as 1:0", |text| {
            let (feature, index) = text.split_once(':')?;
            Some((whole(feature)?, whole(index)?))
        })
    }

    /// A decimal with at most so many places, counted in its last place.
    pub fn places(&mut self, places: usize, most: u32) -> Result<u32, Wrong> {
        let words = if places == 1 { "one place" } else { "three places" };
        let expected = format!("a number from 0 to {} with at most {words}", most / 10u32.pow(places as u32));
        self.read(&expected, |text| {
            let (before, after) = text.split_once('.').unwrap_or((text, "0"));
            if after.len() > places {
                return None;
            }
            whole(after)?;
            let n = whole(&format!("{before}{after:0<places$}"))?;
            (n <= most && !before.is_empty()).then_some(n)
        })
    }

    /// A name in quotes.
    pub fn name(&mut self) -> Result<String, Wrong> {
        let Some(word) = self.peek().filter(|word| word.text.starts_with('"')) else {
            return Err(self.wrong("a name in quotes"));
        };
        let name = unquoted(word.text).map_err(|(after, expected, found)| Wrong {
            line: self.number,
            column: word.column + after,
            expected: expected.to_string(),
            found,
        })?;
        self.read("a name of 1 to 40 characters", |_| (1..=range::MOST_NAME).contains(&name.len()).then_some(name))
    }

    pub fn end(&self) -> Result<(), Wrong> {
        match self.peek() {
            None => Ok(()),
            Some(_) => Err(self.wrong("the end of the line")),
        }
    }
}

/// A name without its quotes; or how many characters before, what was expected and what was found.
fn unquoted(text: &str) -> Result<String, (usize, &'static str, String)> {
    let mut name = String::new();
    let inside = &text[1..text.len() - 1];
    let mut chars = inside.chars().enumerate();
    while let Some((k, mut c)) = chars.next() {
        if c == '\\' {
            c = chars.next().map_or('\\', |(_, next)| next);
            if !matches!(c, '\\' | '"') {
                return Err((k + 2, "\\ or \" after a backslash", shown(&c.to_string())));
            }
        }
        if !(c.is_ascii() && range::is_name_byte(c as u8)) {
            return Err((k + 1, "a character of ASCII from blank to tilde", shown(&c.to_string())));
        }
        name.push(c);
    }
    Ok(name)
}

/// A word as it is told, not too long.
pub fn shown(word: &str) -> String {
    let inside = word.strip_prefix('"').and_then(|rest| rest.strip_suffix('"'));
    let word = inside.unwrap_or(word);
    match word.char_indices().nth(40) {
        None => format!("{word:?}"),
        Some((at, _)) => format!("{:?} and more", &word[..at]),
    }
}

/// A number, not infinite nor a NaN by its text, though it may be too large for an f64.
fn number(text: &str) -> Option<f64> {
    let digits = text.bytes().all(|b| b.is_ascii_digit() || b"+-.eE".contains(&b));
    digits.then(|| text.parse().ok()).flatten()
}

fn whole(text: &str) -> Option<u32> {
    let digits = text.bytes().all(|b| b.is_ascii_digit());
    digits.then(|| text.parse().ok()).flatten()
}

/// `a`, `a or b`, `a, b or c`.
fn either(names: &[String]) -> String {
    match names {
        [] => String::new(),
        [only] => only.clone(),
        [most @ .., last] => format!("{} or {last}", most.join(", ")),
    }
}
