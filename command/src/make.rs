//! A part from its text, in the form that FORMAT.md lays down.
use crate::line::{lines, Line, Wrong};
use crate::part::{Job, Part, Polygon, Surface};
use crate::range;
use crate::settings::Settings;
use gablemadder::{Face, MOST_POLYGONS, MOST_VERTICES};

/// The part that a text describes.
pub fn part(text: &[u8]) -> Result<Part, Wrong> {
    let text = text.strip_prefix(b"\xef\xbb\xbf").unwrap_or(text);
    let text = std::str::from_utf8(text).map_err(|error| not_utf8(text, error.valid_up_to()))?;
    let mut lines = Lines { all: lines(text)?, next: 0 };
    lines.line(|line| {
        line.keyword("part")?;
        line.keyword("1")
    })?;
    lines.line(|line| line.keyword("job"))?;
    let job = job(&mut lines)?;
    let mut part = Part { vertices: Vec::new(), polygons: Vec::new(), job };
    while !lines.here().is_text_end() {
        faces(&mut lines, &mut part)?;
    }
    Ok(part)
}

fn not_utf8(text: &[u8], at: usize) -> Wrong {
    let before = String::from_utf8_lossy(&text[..at]);
    let line = before.matches('\n').count() + 1;
    let column = before.rsplit('\n').next().unwrap_or("").chars().count() + 1;
    Wrong { line, column, expected: "a text in UTF-8".to_string(), found: format!("a byte of hexadecimal {:02x}", text[at]) }
}

/// The lines, the last of which is the text's end and is never passed.
struct Lines<'a> {
    all: Vec<Line<'a>>,
    next: usize,
}

impl<'a> Lines<'a> {
    fn here(&self) -> &Line<'a> {
        &self.all[self.next]
    }

    /// Reads a line by `read`, to its end.
    fn line<T>(&mut self, read: impl FnOnce(&mut Line<'a>) -> Result<T, Wrong>) -> Result<T, Wrong> {
        let line = &mut self.all[self.next];
        let value = read(line)?;
        line.end()?;
        self.next += 1;
        Ok(value)
    }
}

/// The job, up to the first face or the end.
fn job(lines: &mut Lines) -> Result<Job, Wrong> {
    let mut settings = Settings::default();
    while !lines.here().is("face") && !lines.here().is_text_end() {
        lines.line(|line| settings.read(line))?;
    }
    settings.job().map_err(|name| lines.here().wrong(format!("\"{name}\" of the job")))
}

/// A face's line and its polygons.
fn faces(lines: &mut Lines, part: &mut Part) -> Result<(), Wrong> {
    let (face, surface) = lines.line(|line| {
        line.keyword("face")?;
        let (feature, index) = line.face()?;
        Ok((Face { feature, index }, surface(line)?))
    })?;
    if !lines.here().is("polygon") {
        return Err(lines.here().wrong("\"polygon\""));
    }
    while lines.here().is("polygon") {
        if part.polygons.len() == MOST_POLYGONS {
            return Err(lines.here().wrong(format!("the end of the text after {MOST_POLYGONS} polygons")));
        }
        lines.line(|line| line.keyword("polygon"))?;
        let first = part.vertices.len();
        corners(lines, &mut part.vertices)?;
        part.polygons.push(Polygon { face, first, count: part.vertices.len() - first, surface });
    }
    match lines.here().is("face") || lines.here().is_text_end() {
        true => Ok(()),
        false => Err(lines.here().wrong("a vertex, \"polygon\" or \"face\"")),
    }
}

fn surface(line: &mut Line) -> Result<Surface, Wrong> {
    match line.one_of(&["plane", "cylinder", "revolved", "other"], |name| name)? {
        "plane" => Ok(Surface::Plane),
        "other" => Ok(Surface::Other),
        kind => {
            line.keyword("origin")?;
            let origin = line.point()?;
            line.keyword("direction")?;
            let direction = line.direction()?;
            if kind == "revolved" {
                return Ok(Surface::Revolved { origin, direction });
            }
            line.keyword("radius")?;
            let radius = line.real(range::RADIUS)?;
            Ok(Surface::Cylinder { origin, direction, radius })
        }
    }
}

/// The vertices of a polygon, a line for each.
fn corners(lines: &mut Lines, vertices: &mut Vec<[f64; 3]>) -> Result<(), Wrong> {
    let mut count = 0;
    while lines.here().is_number() {
        if count == range::MOST_CORNERS {
            return Err(lines.here().wrong("\"polygon\" or \"face\" after 64 vertices"));
        }
        if vertices.len() == MOST_VERTICES {
            return Err(lines.here().wrong(format!("the end of the text after {MOST_VERTICES} vertices")));
        }
        vertices.push(lines.line(Line::point)?);
        count += 1;
    }
    match count < range::FEWEST_CORNERS {
        true => Err(lines.here().wrong(format!("a vertex, since the polygon has {count} and needs 3"))),
        false => Ok(()),
    }
}

#[cfg(test)]
mod tests {
    use super::*;
    use crate::show;

    const TEXT: &str = "\
part 1
job
  process CNC
  up 0 0 1
  layer 0.2
  min_wall 0.8
  min_hole 1
  nozzle 0.4
  overhang 45.5
  material \"A \\\"b\\\" \\\\ # c\" metal min_wall 0.8 bend_ratio 1.5
face 1:0 plane
polygon
  0 0 0
  0 20 -0
  20 20 0
face 2:0 cylinder origin 1 2 3 direction 0 0 1 radius 2.5
polygon
  0 0 0
  0 20 0
  20 20 0
";

    #[test]
    fn a_text_is_read() {
        let part = part(TEXT.as_bytes()).unwrap();
        let material = part.job.material.as_ref().unwrap();
        assert_eq!(material.name, "A \"b\" \\ # c");
        assert_eq!((part.job.overhang, material.bend_ratio), (Some(455), Some(1500)));
        assert_eq!((part.vertices.len(), part.polygons.len()), (6, 2));
        assert!(part.vertices[1][2].is_sign_negative());
        assert_eq!(part, super::part(show::text(&part).as_bytes()).unwrap());
    }

    #[test]
    fn blanks_comments_and_order_are_free() {
        let same = part(TEXT.as_bytes()).unwrap();
        let spread = TEXT.replace(" ", " \t ").replace("A \t \\\"b\\\" \t \\\\ \t # \t c", "A \\\"b\\\" \\\\ # c").replace('\n', " # é\r\n\r\n");
        assert_eq!(part(format!("\u{feff}# first\n{spread}").as_bytes()).unwrap(), same);
        let turned = TEXT.replace("  process CNC\n", "").replace("  min_hole 1\n", "  min_hole 1e0\n  process CNC\n");
        assert_eq!(part(turned.as_bytes()).unwrap(), same);
    }

    /// What is said of the text with one place changed.
    fn said(old: &str, new: &str) -> String {
        assert!(TEXT.contains(old), "{old}");
        part(TEXT.replacen(old, new, 1).as_bytes()).expect_err(new).to_string()
    }

    #[test]
    fn a_wrong_text_is_answered_with_its_place() {
        let cases = [
            ("part 1", "part 2", "1:6: expected \"1\", found \"2\""),
            ("part 1", "", "2:1: expected \"part\", found \"job\""),
            ("job", "jobs", "2:1: expected \"job\", found \"jobs\""),
            ("process CNC", "process cnc", "3:11: expected \"CNC\", \"sheet\", \"FDM\", \"SLA\" or \"SLS\", found \"cnc\""),
            ("up 0 0 1", "up 0 0 0.25", "4:6: expected a direction of length 0.5 to 2, found one of length 0.25"),
            ("up 0 0 1", "up 0 0", "4:9: expected a number, found the end of the line"),
            ("up 0 0 1", "up 0 0 1 0", "4:12: expected the end of the line, found \"0\""),
            ("layer 0.2", "layer 0", "5:9: expected a number from 0.001 to 1000, found \"0\""),
            ("layer 0.2", "layer nan", "5:9: expected a number, found \"nan\""),
            ("  layer 0.2\n", "", "10:1: expected \"layer\" of the job, found \"face\""),
            ("nozzle 0.4", "layer 0.4", "8:3: expected each setting once, found \"layer\""),
            ("nozzle 0.4", "nozle 0.4", "8:3: expected a setting of the job or \"face\", found \"nozle\""),
            ("45.5", "45.55", "9:12: expected a number from 0 to 90 with at most one place, found \"45.55\""),
            ("45.5", "90.1", "9:12: expected a number from 0 to 90 with at most one place, found \"90.1\""),
            ("45.5", ".5", "9:12: expected a number from 0 to 90 with at most one place, found \".5\""),
            ("45.5", "5.", "9:12: expected a number from 0 to 90 with at most one place, found \"5.\""),
            ("1.5\n", "1e1\n", "10:59: expected a number from 0 to 100 with at most three places, found \"1e1\""),
            ("\"A", "A", "10:12: expected a name in quotes, found \"A\""),
            ("# c\"", "# c", "10:61: expected a quote at the end of the name, found the end of the line"),
            ("# c", "é", "10:24: expected a character of ASCII from blank to tilde, found \"é\""),
            ("\\\\", "\\n", "10:22: expected \\ or \" after a backslash, found \"n\""),
            ("A \\\"b\\\" \\\\ # c", "", "10:12: expected a name of 1 to 40 characters, found \"\""),
            ("1:0 plane", "1 plane", "11:6: expected feature and number of the face, such as 1:0, found \"1\""),
            ("1:0 plane", "1:4294967296 plane", "11:6: expected feature and number of the face, such as 1:0, found \"1:4294967296\""),
            ("1:0 plane", "1:0 flat", "11:10: expected \"plane\", \"cylinder\", \"revolved\" or \"other\", found \"flat\""),
            ("polygon\n", "", "12:3: expected \"polygon\", found \"0\""),
            ("0 20 -0", "0 abc 0", "14:5: expected a number, found \"abc\""),
            ("0 20 -0", "0 1e999 0", "14:5: expected a number from -10000 to 10000, found \"1e999\""),
            ("0 20 -0", "abc 0 0", "14:3: expected a vertex, since the polygon has 1 and needs 3, found \"abc\""),
            ("  0 20 -0\n", "", "15:1: expected a vertex, since the polygon has 2 and needs 3, found \"face\""),
            ("  20 20 0\nface", "  20 20 0\nx", "16:1: expected a vertex, \"polygon\" or \"face\", found \"x\""),
            ("radius 2.5", "radius 0.0001", "16:55: expected a number from 0.001 to 10000, found \"0.0001\""),
            ("radius 2.5", "", "16:47: expected \"radius\", found the end of the line"),
        ];
        for (old, new, want) in cases {
            assert_eq!(said(old, new), want);
        }
    }

    #[test]
    fn the_end_of_the_text_is_told() {
        assert_eq!(part(b"").unwrap_err().to_string(), "1:1: expected \"part\", found the end of the text");
        assert_eq!(part(b"part 1\n\n").unwrap_err().to_string(), "3:1: expected \"job\", found the end of the text");
        assert_eq!(part(b"part 1\njob").unwrap_err().to_string(), "3:1: expected \"process\" of the job, found the end of the text");
        assert_eq!(part(b"part 1\nj\xffob").unwrap_err().to_string(), "2:2: expected a text in UTF-8, found a byte of hexadecimal ff");
    }

    #[test]
    fn too_many_are_told() {
        let head = TEXT.split_inclusive("plane\n").next().unwrap();
        let corner = "0 0 0\n";
        let long = format!("{head}polygon\n{}", corner.repeat(65));
        assert_eq!(part(long.as_bytes()).unwrap_err().to_string(), "77:1: expected \"polygon\" or \"face\" after 64 vertices, found \"0\"");
        let many = format!("{head}{}", format!("polygon\n{}", corner.repeat(3)).repeat(4097));
        assert_eq!(part(many.as_bytes()).unwrap_err().to_string(), "16396:1: expected the end of the text after 4096 polygons, found \"polygon\"");
        let most = format!("{head}{}polygon\n{}", format!("polygon\n{}", corner.repeat(64)).repeat(255), corner.repeat(64));
        assert_eq!(part(most.as_bytes()).unwrap().vertices.len(), 16_384);
        let more = format!("{most}polygon\n{corner}");
        assert_eq!(part(more.as_bytes()).unwrap_err().to_string(), "16653:1: expected the end of the text after 16384 vertices, found \"0\"");
    }
}
