//! The forms of the check that own their buffers.
use crate::{check_with, FaultRow, Refusal, Report, Scratch, MOST_POLYGONS, MOST_REPORT, MOST_ROWS, MOST_VERTICES};

/// Rows and bytes for the report. All rows that are lent are cleared, and where they are more than 64 the library zeroes cells of its own for 2,048, which
/// takes a fifth of the check of a small part. So a small part is lent 64, and on refusal 11 or 12 as many as there may be, in a second call.
const FEW: (usize, usize) = (64, 32_768);
/// Most parts have fewer faults, and shorter reports.
const FIRST: (usize, usize) = (256, 32_768);
const MOST: (usize, usize) = (MOST_ROWS, MOST_REPORT);

/// A part file of 64 polygons, of four vertices each, in bytes.
const SMALL: usize = 24 * 256 + 80 * 64 + 144;

/// Checks a part file, with buffers of the right sizes for it.
///
/// [`TooLittleScratch`](Refusal::TooLittleScratch) and [`ReportTooLong`](Refusal::ReportTooLong) do not come from here, and
/// [`TooManyFaults`](Refusal::TooManyFaults) means over 2,048 faults. To check many parts keep a [`Checker`].
///
/// ```
/// use gablemadder::Refusal;
/// assert_eq!(gablemadder::check(b"no part"), Err(Refusal::TooShort));
/// ```
pub fn check(file: &[u8]) -> Result<Report<'static>, Refusal> {
    Checker::new().run(file).map(Report::into_owned)
}

/// Checks parts one after the other in buffers that it keeps.
///
/// The first part allocates what any part may need, below 4 MiB, and nothing is allocated after it: not for a larger part, nor to read its report. At
/// first 256 rows and 32,768 bytes for the report are lent, since all that is lent is cleared. The first part for which these are too few is checked a
/// second time, with [`MOST_ROWS`] and [`MOST_REPORT`], and all parts after it are lent as many. A part file of at most 11,408 bytes, which is one of
/// about 64 polygons, is lent 64 rows, and checked a second time only where these are too few.
///
/// ```
/// # fn main() -> Result<(), Box<dyn std::error::Error>> {
/// # let file = std::fs::read(concat!(env!("CARGO_MANIFEST_DIR"), "/../../examples/plate.part"))?;
/// let mut checker = gablemadder::Checker::new();
/// for part in [&file, &file] {
///     let report = checker.check(part)?;
///     assert_eq!(report.findings().count(), 1);
/// }
/// # Ok(())
/// # }
/// ```
#[derive(Debug, Default)]
pub struct Checker {
    words: Vec<u32>,
    reals: Vec<f64>,
    rows: Vec<FaultRow>,
    report: Vec<u8>,
    /// A part that is not small has needed more rows, or a longer report, than are lent at first.
    lends_most: bool,
}

impl Checker {
    /// Nothing is allocated before the first part.
    pub fn new() -> Checker {
        Checker::default()
    }

    /// Checks a part file; its report stands in the checker until the next part. The same refusals come as from [`check`].
    pub fn check(&mut self, file: &[u8]) -> Result<Report<'_>, Refusal> {
        let most = Scratch::for_counts(MOST_VERTICES, MOST_POLYGONS);
        grown(&mut self.words, most.words);
        grown(&mut self.reals, most.reals);
        grown(&mut self.rows, MOST_ROWS);
        grown(&mut self.report, MOST_REPORT);
        self.run(file)
    }

    /// The same in buffers that grow only as this part needs.
    fn run(&mut self, file: &[u8]) -> Result<Report<'_>, Refusal> {
        let is_small = file.len() <= SMALL;
        let lent = if is_small {
            FEW
        } else if self.lends_most {
            MOST
        } else {
            FIRST
        };
        let mut answer = self.attempt(file, lent);
        if matches!(answer, Err(Refusal::TooManyFaults | Refusal::ReportTooLong)) && lent != MOST {
            self.lends_most |= !is_small;
            answer = self.attempt(file, MOST);
        }
        let report = Report::parse(&self.report[..answer?]);
        Ok(report.expect("the library's reports are well formed"))
    }

    /// The report's length.
    fn attempt(&mut self, file: &[u8], (rows, report): (usize, usize)) -> Result<usize, Refusal> {
        let scratch = Scratch::of(file);
        let words = grown(&mut self.words, scratch.words);
        let reals = grown(&mut self.reals, scratch.reals);
        let rows = grown(&mut self.rows, rows);
        let report = grown(&mut self.report, report);
        check_with(file, words, reals, rows, report)
    }
}

/// The first so many elements, which are made where there are fewer.
fn grown<T: Clone + Default>(buffer: &mut Vec<T>, length: usize) -> &mut [T] {
    if buffer.is_empty() {
        // Zeros of the system's, which take no time until they are used.
        *buffer = vec![T::default(); length];
    }
    if buffer.len() < length {
        buffer.resize(length, T::default());
    }
    &mut buffer[..length]
}

#[cfg(test)]
mod tests {
    use super::*;

    #[test]
    fn a_buffer_grows_and_stays() {
        let mut buffer: Vec<u32> = Vec::new();
        assert_eq!(grown(&mut buffer, 3), [0, 0, 0]);
        buffer[2] = 7;
        assert_eq!(grown(&mut buffer, 2), [0, 0]);
        assert_eq!(grown(&mut buffer, 4), [0, 0, 7, 0]);
        assert_eq!(buffer.len(), 4);
    }
}
