//! What the rules of a process find in a part, in the Rust's own order, before equal findings are merged.
use crate::dfm;
pub use crate::dfm::{DfmReport, Finding, Process, Severity};
use crate::part::{self, PartFile};
use crate::solid::Solid;

/// A part that is read, and its job.
pub struct Part(PartFile);

impl Part {
    /// The refusal from 1 to 9 where there is one.
    pub fn read(file: &[u8]) -> Result<Part, u32> {
        part::read(file).map(Part)
    }

    pub fn body(&self) -> &Solid {
        &self.0.body
    }

    /// By the rules of this process, whatever the job's own is: the findings, the thickness, the bends and the height.
    pub fn report(&self, process: Process) -> DfmReport {
        dfm::unmerged(&self.0.body, self.0.material.as_ref(), process, &self.0.print)
    }
}
