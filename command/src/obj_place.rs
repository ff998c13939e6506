//! Where OBJ text is wrong: the first line that refusals 14 and 15 speak of, and what was expected there. The library refuses; this only looks for the place.
use crate::line::shown;
use crate::place::Told;
use gablemadder::{Refusal, MOST_POLYGONS, MOST_VERTICES};

const MOST_CORNERS: usize = 64;
const MOST_DIGITS: usize = 15;

/// What is to be said of a text that was refused. A place is told only where it is one of this refusal.
pub fn tell(text: &[u8], refusal: Refusal) -> Told {
    let place = match refusal {
        Refusal::TooLarge => Some(sizes(text)),
        _ => first_wrong(text).filter(|wrong| wrong.refusal == refusal).map(|wrong| wrong.place()),
    };
    Told { refusal, place, advice: refusal.advice() }
}

/// What the check of the part file says, with the line of the face that it speaks of.
pub fn with_line(told: Told, text: &[u8]) -> Told {
    let polygon = told.place.as_deref().and_then(|place| place.strip_prefix("polygon ")?.split(' ').next()?.parse::<usize>().ok());
    let mut faces = text.split(|byte| *byte == b'\n').enumerate().filter(|(_, line)| line.starts_with(b"f "));
    let line = polygon.and_then(|polygon| faces.nth(polygon)).map(|(line, _)| line + 1);
    let place = told.place.map(|place| match line {
        Some(line) => format!("line {line}, {place}"),
        None => place,
    });
    Told { place, ..told }
}

fn sizes(text: &[u8]) -> String {
    let faces = text.split(|byte| *byte == b'\n').filter(|line| line.starts_with(b"f "));
    let (faces, corners) = faces.fold((0, 0), |(faces, corners), line| (faces + 1, corners + fields(line).skip(1).count()));
    format!("{faces} faces with {corners} corners, where {MOST_POLYGONS} and {MOST_VERTICES} are the most")
}

/// A place in a text, from 1.
#[derive(Debug, PartialEq)]
struct Wrong {
    refusal: Refusal,
    line: usize,
    at: At,
}

impl Wrong {
    fn place(&self) -> String {
        let At { column, expected, found } = &self.at;
        format!("line {}, column {column}: expected {expected}, found {found}", self.line)
    }
}

/// A place in a line, from 1, what was expected there and what stands there.
#[derive(Debug, PartialEq)]
struct At {
    column: usize,
    expected: String,
    found: String,
}

/// The first line that is refused.
fn first_wrong(text: &[u8]) -> Option<Wrong> {
    let mut defined = 0;
    for (number, line) in text.split(|byte| *byte == b'\n').enumerate() {
        let wrong = |refusal, at| Some(Wrong { refusal, line: number + 1, at });
        if let Some(at) = bad_form(line) {
            return wrong(Refusal::BadLine, at);
        }
        if line.starts_with(b"f") {
            if let Some(at) = undefined(line, defined) {
                return wrong(Refusal::UndefinedVertex, at);
            }
        }
        defined += u64::from(line.starts_with(b"v"));
    }
    None
}

/// The fields of a line, each with its column.
fn fields(line: &[u8]) -> impl Iterator<Item = (usize, &[u8])> {
    let mut column = 1;
    let each = line.split(|byte| *byte == b' ').map(move |field| {
        let at = column;
        column += field.len() + 1;
        (at, field)
    });
    each.filter(|(_, field)| !field.is_empty())
}

/// Where a line is of another form than those that are read.
fn bad_form(line: &[u8]) -> Option<At> {
    if line.is_empty() || line[0] == b'#' {
        return None;
    }
    if let Some(rest) = line.strip_suffix(b"\r") {
        if rest.is_empty() || bad_form(rest).is_none() {
            return Some(At { column: line.len(), expected: "a line feed alone".to_string(), found: "a carriage return before it".to_string() });
        }
    }
    let mut all = Fields { line, rest: fields(line).collect(), next: 0 };
    all.read().err()
}

struct Fields<'a> {
    line: &'a [u8],
    rest: Vec<(usize, &'a [u8])>,
    next: usize,
}

impl<'a> Fields<'a> {
    fn read(&mut self) -> Result<(), At> {
        if self.line[0] == b' ' {
            return Err(At { column: 1, expected: "no space at the line's start".to_string(), found: "one".to_string() });
        }
        let kind = self.field("\"v\", \"f\", \"g\" or \"#\" at the line's start", |field| [b"v", b"f", b"g"].iter().any(|kind| field == *kind))?;
        match kind {
            b"v" => (0..3).try_for_each(|_| self.field("a decimal of 1 to 15 digits without an exponent", is_decimal).map(|_| ()))?,
            b"f" => self.corners()?,
            _ => drop(self.field("a whole number below 4294967296", |field| value(field).is_some_and(|n| n <= u32::MAX.into()))?),
        }
        self.end("the end of the line")
    }

    fn corners(&mut self) -> Result<(), At> {
        let mut count = 0;
        while count < 3 || self.next < self.rest.len() {
            if count == MOST_CORNERS {
                return self.end("the end of the line after 64 vertices");
            }
            let why = if self.next < self.rest.len() { String::new() } else { format!(", since the face has {count} and needs 3") };
            self.field(&format!("a vertex number from 1, digits alone{why}"), |field| value(field).is_some_and(|n| n > 0))?;
            count += 1;
        }
        Ok(())
    }

    /// The next field, which has to be one of these.
    fn field(&mut self, expected: &str, is_good: impl Fn(&[u8]) -> bool) -> Result<&'a [u8], At> {
        match self.rest.get(self.next) {
            Some((_, field)) if is_good(field) => {
                self.next += 1;
                Ok(field)
            }
            _ => Err(self.wrong(expected)),
        }
    }

    fn end(&self, expected: &str) -> Result<(), At> {
        match self.next < self.rest.len() || self.line.ends_with(b" ") {
            true => Err(self.wrong(expected)),
            false => Ok(()),
        }
    }

    fn wrong(&self, expected: &str) -> At {
        let spaces = self.line.iter().rev().take_while(|byte| **byte == b' ').count();
        let (column, found) = match self.rest.get(self.next) {
            Some((column, field)) => (*column, shown(&String::from_utf8_lossy(field))),
            None if spaces > 0 => (self.line.len() - spaces + 1, "a space".to_string()),
            None => (self.line.len() + 1, "the end of the line".to_string()),
        };
        At { column, expected: expected.to_string(), found }
    }
}

/// Where a face of good form names a vertex past those that are defined.
fn undefined(line: &[u8], defined: u64) -> Option<At> {
    let (column, field) = fields(line).skip(1).find(|(_, field)| value(field).is_some_and(|n| n > defined))?;
    let expected = match defined {
        0 => "no face before the first vertex".to_string(),
        1 => "the number of a vertex defined above, which is 1".to_string(),
        most => format!("the number of a vertex defined above, from 1 to {most}"),
    };
    Some(At { column, expected, found: shown(&String::from_utf8_lossy(field)) })
}

fn is_decimal(field: &[u8]) -> bool {
    let unsigned = field.strip_prefix(b"+").or(field.strip_prefix(b"-")).unwrap_or(field);
    let digits = unsigned.iter().filter(|byte| byte.is_ascii_digit()).count();
    let points = unsigned.iter().filter(|byte| **byte == b'.').count();
    (1..=MOST_DIGITS).contains(&digits) && points <= 1 && digits + points == unsigned.len()
}

/// The value of digits alone, u64's largest for any past it.
fn value(field: &[u8]) -> Option<u64> {
    let digits = std::str::from_utf8(field).ok().filter(|text| !text.is_empty() && text.bytes().all(|byte| byte.is_ascii_digit()))?;
    Some(digits.parse().unwrap_or(u64::MAX))
}

#[cfg(test)]
mod tests {
    use super::*;

    const TEXT: &[u8] = b"# a\nv 0 0 0\nv 1.50 -0 +2\ng 7\nv  0 1 .5\nf 1 2 3\nf 3 002 1 2\n";

    fn library(text: &[u8]) -> Option<Refusal> {
        gablemadder::obj_to_part(text, &[0; 128]).err()
    }

    #[test]
    fn the_library_refuses_where_a_place_is_found() {
        let mut seen = [0; 2];
        for at in 0..TEXT.len() {
            for byte in 0..=255 {
                let mut changed = TEXT.to_vec();
                changed[at] = byte;
                let mut longer = TEXT.to_vec();
                longer.insert(at, byte);
                for text in [changed, longer] {
                    let found = first_wrong(&text).map(|wrong| wrong.refusal);
                    assert_eq!(found, library(&text), "{}", String::from_utf8_lossy(&text));
                    seen[0] += u64::from(found == Some(Refusal::BadLine));
                    seen[1] += u64::from(found == Some(Refusal::UndefinedVertex));
                }
            }
        }
        assert!(seen[0] > 1000 && seen[1] > 20, "{seen:?}");
    }

    #[test]
    fn places_are_told() {
        let many = format!("v 0 0 0\nf{}", " 1".repeat(65));
        let cases = [
            ("v 1 2", "line 1, column 6: expected a decimal of 1 to 15 digits without an exponent, found the end of the line"),
            ("#\n\nv 1 2e3 4", "line 3, column 5: expected a decimal of 1 to 15 digits without an exponent, found \"2e3\""),
            ("v 1 2 3 4", "line 1, column 9: expected the end of the line, found \"4\""),
            ("v 1 2 3  ", "line 1, column 8: expected the end of the line, found a space"),
            ("v 1 2  ", "line 1, column 6: expected a decimal of 1 to 15 digits without an exponent, found a space"),
            (" v 1 2 3", "line 1, column 1: expected no space at the line's start, found one"),
            ("v 1 2 3\r\nv 1 2 3", "line 1, column 8: expected a line feed alone, found a carriage return before it"),
            ("\r\n", "line 1, column 1: expected a line feed alone, found a carriage return before it"),
            ("vn 0 0 1", "line 1, column 1: expected \"v\", \"f\", \"g\" or \"#\" at the line's start, found \"vn\""),
            ("g name", "line 1, column 3: expected a whole number below 4294967296, found \"name\""),
            ("g 4294967296", "line 1, column 3: expected a whole number below 4294967296, found \"4294967296\""),
            ("g 1 2", "line 1, column 5: expected the end of the line, found \"2\""),
            ("f 1 2", "line 1, column 6: expected a vertex number from 1, digits alone, since the face has 2 and needs 3, found the end of the line"),
            ("f 1 0 1", "line 1, column 5: expected a vertex number from 1, digits alone, found \"0\""),
            ("f 1/1 2/2 3/3", "line 1, column 3: expected a vertex number from 1, digits alone, found \"1/1\""),
            (&many, "line 2, column 131: expected the end of the line after 64 vertices, found \"1\""),
            ("f 1 2 3", "line 1, column 3: expected no face before the first vertex, found \"1\""),
            ("v 0 0 0\nf 1 1 2", "line 2, column 7: expected the number of a vertex defined above, which is 1, found \"2\""),
            (
                "v 0 0 0\nv 1 0 0\nf 1 2 99999999999999999999999",
                "line 3, column 7: expected the number of a vertex defined above, from 1 to 2, found \"99999999999999999999999\"",
            ),
        ];
        for (text, want) in cases {
            let refusal = library(text.as_bytes()).expect(text);
            assert_eq!(tell(text.as_bytes(), refusal).place.as_deref(), Some(want), "{text:?}");
        }
    }

    #[test]
    fn too_many_are_counted() {
        let text = format!("v 0 0 0\n{}", "f 1 1 1 1\n".repeat(4097));
        let told = tell(text.as_bytes(), library(text.as_bytes()).unwrap());
        assert_eq!(
            (told.refusal, told.place.as_deref()),
            (Refusal::TooLarge, Some("4097 faces with 16388 corners, where 4096 and 16384 are the most"))
        );
    }

    #[test]
    fn a_polygon_has_its_line() {
        let told = |place: Option<&str>| Told { refusal: Refusal::FlatPolygon, place: place.map(str::to_string), advice: "" };
        let line = |place| with_line(told(place), TEXT).place;
        assert_eq!(line(Some("polygon 1 (face 1:7): flat")).as_deref(), Some("line 7, polygon 1 (face 1:7): flat"));
        assert_eq!(line(Some("polygon 2 (face 1:7): flat")).as_deref(), Some("polygon 2 (face 1:7): flat"));
        assert_eq!(line(Some("job: bad")).as_deref(), Some("job: bad"));
        assert_eq!(line(None), None);
    }
}
