//! A check of a part before it is made: thin walls, deep bores, sharp corners, tight bends, overhangs, hollows.
//!
//! The check itself is the static library `libexports.a`, whose every function is proved to meet its contract; this package lends it its buffers
//! and reads its reports. A part comes as the bytes of a part file, and the answer is a [`Report`] or a [`Refusal`]:
//!
//! ```
//! # fn main() -> Result<(), Box<dyn std::error::Error>> {
//! # let path = concat!(env!("CARGO_MANIFEST_DIR"), "/../../examples/plate.part");
//! let file = std::fs::read(path)?;
//! let report = gablemadder::check(&file)?;
//! for finding in report.findings() {
//!     println!("{}: {}", finding.severity, finding.message);
//! }
//! assert_eq!(report.findings().count(), 1);
//! # Ok(())
//! # }
//! ```
//!
//! Three ways to call it, from the most comfortable to the barest:
//!
//! - [`check`] sizes and owns everything;
//! - a [`Checker`] keeps its buffers from part to part, and allocates nothing after its first;
//! - [`check_with`] is the library's own call: all is lent by the caller, in the sizes that [`Scratch::of`] says, and nothing is allocated.
//!
//! [`obj_to_part`] makes a part file of Wavefront OBJ text, and [`obj_to_part_with`] the same in a lent buffer, each on 1 MiB of stack.
//!
//! The library keeps nothing between calls: threads may check at once, each with buffers of its own.
#![deny(missing_docs)]
#![deny(unsafe_code)]

mod checker;
#[allow(unsafe_code)]
mod ffi;
mod obj;
mod refusal;
mod report;
mod scratch;

pub use checker::{check, Checker};
pub use ffi::{check_with, decimal, obj_to_part_with, sqrt, sqrt_bits, FaultRow};
pub use obj::{obj_room, obj_to_part, JOB};
pub use refusal::Refusal;
pub use report::{Face, Finding, Malformed, Report, Rule, Severity};
pub use scratch::{Scratch, MOST_POLYGONS, MOST_REPORT, MOST_ROWS, MOST_VERTICES};
