//! A plain reader of OBJ text, by the sentences of request 1: decimals are read by Rust's own `parse`.

pub const MOST_VERTICES: usize = 16_384;
pub const MOST_POLYGONS: usize = 4_096;
pub const JOB: usize = 128;

/// What a text holds: the corners of all faces, one face after the other, and of each face its index and how many corners it has.
#[derive(Default)]
pub struct Part {
    pub corners: Vec<[f64; 3]>,
    pub faces: Vec<(u32, usize)>,
}

enum Line {
    Vertex([f64; 3]),
    Face,
    Group(u32),
    Skipped,
}

/// The part that a text holds; or 14 or 15, for the first line that is refused.
pub fn read(text: &[u8]) -> Result<Part, u32> {
    let (mut part, mut vertices, mut index, mut numbers) = (Part::default(), Vec::new(), 0, Vec::new());
    for line in text.split(|b| *b == b'\n') {
        match read_line(line, &mut numbers).ok_or(14u32)? {
            Line::Skipped => {}
            Line::Vertex(v) => vertices.push(v),
            Line::Group(n) => index = n,
            Line::Face => {
                part.faces.push((index, numbers.len()));
                for n in &numbers {
                    part.corners.push(*vertices.get((n - 1) as usize).ok_or(15u32)?);
                }
            }
        }
    }
    Ok(part)
}

/// None for a line of any other form. The vertex numbers of a face go into `numbers`.
fn read_line(line: &[u8], numbers: &mut Vec<u64>) -> Option<Line> {
    if line.is_empty() || line[0] == b'#' {
        return Some(Line::Skipped);
    }
    // One or more spaces stand before each field but the first, and nowhere else.
    if line[0] == b' ' || line[line.len() - 1] == b' ' {
        return None;
    }
    let mut fields = line.split(|b| *b == b' ').filter(|field| !field.is_empty());
    match fields.next()? {
        b"v" => {
            let v = [decimal(fields.next()?)?, decimal(fields.next()?)?, decimal(fields.next()?)?];
            fields.next().is_none().then_some(Line::Vertex(v))
        }
        b"f" => {
            numbers.clear();
            for field in fields {
                numbers.push(whole(field).filter(|n| *n > 0)?);
            }
            (3..=64).contains(&numbers.len()).then_some(Line::Face)
        }
        b"g" => {
            let n = u32::try_from(whole(fields.next()?)?).ok()?;
            fields.next().is_none().then_some(Line::Group(n))
        }
        _ => None,
    }
}

/// 1 to 15 digits, a sign before them or none, and at most one point anywhere.
fn decimal(field: &[u8]) -> Option<f64> {
    let unsigned = field.strip_prefix(b"+").or(field.strip_prefix(b"-")).unwrap_or(field);
    let digits = unsigned.iter().filter(|b| b.is_ascii_digit()).count();
    let points = unsigned.iter().filter(|b| **b == b'.').count();
    let good = (1..=15).contains(&digits) && points <= 1 && digits + points == unsigned.len();
    good.then(|| std::str::from_utf8(field).ok()?.parse().ok()).flatten()
}

/// Digits alone, any number of them. A number past u64 is its largest one, which no text's vertices reach.
fn whole(field: &[u8]) -> Option<u64> {
    if field.is_empty() || !field.iter().all(u8::is_ascii_digit) {
        return None;
    }
    Some(std::str::from_utf8(field).ok()?.parse().unwrap_or(u64::MAX))
}

impl Part {
    /// Bytes of its part file.
    pub fn size(&self) -> usize {
        24 * self.corners.len() + 80 * self.faces.len() + 144
    }

    /// 3 where a part file has no room for it, then 5 and 16; 0 for none.
    pub fn refusal(&self, job: usize, room: usize) -> u32 {
        match () {
            () if self.corners.len() > MOST_VERTICES || self.faces.len() > MOST_POLYGONS => 3,
            () if job != JOB => 5,
            () if room < self.size() => 16,
            () => 0,
        }
    }

    /// Its part file: feature 1, all planes.
    pub fn file(&self, job: &[u8]) -> Vec<u8> {
        let mut file = Vec::with_capacity(self.size());
        for c in self.corners.iter().flatten() {
            file.extend(c.to_le_bytes());
        }
        let mut first = 0;
        for (index, count) in &self.faces {
            for n in [1, *index, first, *count as u32, 0, 0] {
                file.extend(n.to_le_bytes());
            }
            file.extend([0; 56]);
            first += *count as u32;
        }
        file.extend(job);
        let polygons = self.faces.len() as u32;
        for n in [1, first, polygons, 80 * polygons + 144] {
            file.extend(n.to_le_bytes());
        }
        file
    }
}
