//! The check of a part file: refusals 1 to 12 in their order, and the printed report.
use crate::dfm::{self, DfmReport};
use crate::part;
use crate::text;

/// Refusal 11 comes past these, however many rows are lent.
pub const MOST_FAULTS: usize = 2048;

/// What the caller lends: f64 and u32 scratch, fault rows, report bytes.
pub struct Lent {
    pub reals: usize,
    pub words: usize,
    pub rows: usize,
    pub report: usize,
}

/// What the check says of a part that refusals 1 to 9 do not turn back.
pub struct Checked {
    /// The scratch that it has to be lent.
    pub reals: usize,
    pub words: usize,
    /// How many faults there are before equal ones are merged.
    pub faults: usize,
    pub text: String,
}

impl Checked {
    /// `check_with` in its two halves, from the file's bytes to the report's; or the refusal from 1 to 9.
    pub fn of(bytes: &[u8]) -> Result<Checked, u32> {
        let file = part::read(bytes)?;
        let (p, v) = (file.polygons, file.vertices);
        let found = dfm::unmerged(&file.body, file.material.as_ref(), file.process, &file.print);
        Ok(Checked { reals: 24 * p + 8 * v + 2048, words: 12 * p + 8 * v + 1024, faults: found.findings.len(), text: printed(found) })
    }

    /// The report, or the refusal from 10 to 12.
    pub fn answer(&self, lent: &Lent) -> Result<&str, u32> {
        if lent.reals < self.reals || lent.words < self.words {
            return Err(10);
        }
        if self.faults > lent.rows || self.faults > MOST_FAULTS {
            return Err(11);
        }
        if self.text.len() > lent.report {
            return Err(12);
        }
        Ok(&self.text)
    }
}

/// The findings merged, sorted and printed.
pub fn printed(found: DfmReport) -> String {
    text::of_report(&dfm::merged(found))
}
