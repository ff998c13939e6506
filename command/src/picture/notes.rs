//! The findings as the picture tells of them: numbered, with their faces in the mesh.
use super::mesh::Mesh;
use gablemadder::{Face, Finding, Report, Severity};

pub struct Note<'a> {
    /// From 1 on, in the report's order.
    pub number: usize,
    pub finding: Finding<'a>,
    /// Those of the mesh, each once, in the report's order.
    pub faces: Vec<usize>,
}

pub fn of<'a>(report: Option<&'a Report>, mesh: &Mesh) -> Vec<Note<'a>> {
    let findings = report.into_iter().flat_map(|report| report.findings());
    let mut notes = vec![];
    for finding in findings {
        let mut faces = vec![];
        for face in finding.faces().filter_map(|face: Face| mesh.faces.binary_search(&face).ok()) {
            if !faces.contains(&face) {
                faces.push(face);
            }
        }
        notes.push(Note { number: notes.len() + 1, finding, faces });
    }
    notes
}

/// For each face the findings about it, the worst first.
pub struct Flags {
    numbers: Vec<Vec<usize>>,
    worst: Vec<Option<Severity>>,
}

impl Flags {
    pub fn new(notes: &[Note], faces: usize) -> Flags {
        let mut flags = Flags { numbers: vec![vec![]; faces], worst: vec![None; faces] };
        for note in notes {
            for &face in &note.faces {
                flags.numbers[face].push(note.number);
                let so_far = flags.worst[face].get_or_insert(note.finding.severity);
                *so_far = note.finding.severity.min(*so_far);
            }
        }
        flags
    }

    pub fn worst(&self, face: usize) -> Option<Severity> {
        self.worst[face]
    }

    pub fn numbers(&self, face: usize) -> &[usize] {
        &self.numbers[face]
    }

    /// The numbers that a tag on the face shows.
    pub fn text(&self, face: usize) -> String {
        runs(&self.numbers[face])
    }
}

/// Rising numbers, three and more in a row as the first and the last: `1,3–5`. Of more than three such terms the others are left out.
fn runs(numbers: &[usize]) -> String {
    let mut terms = vec![];
    for run in numbers.chunk_by(|a, b| a + 1 == *b) {
        match run {
            [first, .., last] if run.len() > 2 => terms.push(format!("{first}–{last}")),
            _ => terms.extend(run.iter().map(usize::to_string)),
        }
    }
    let more = if terms.len() > 3 { "…" } else { "" };
    terms.truncate(3);
    format!("{}{more}", terms.join(","))
}

#[cfg(test)]
mod tests {
    use super::*;

    #[test]
    fn numbers_in_a_row_are_drawn_together() {
        assert_eq!(runs(&[2]), "2");
        assert_eq!(runs(&[1, 2]), "1,2");
        assert_eq!(runs(&[1, 3, 4, 5]), "1,3–5");
        assert_eq!(runs(&[1, 3, 5, 7, 8, 9]), "1,3,5…");
    }
}
