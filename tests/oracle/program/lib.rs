//! The oracle as a library, for tests that call it file by file, and the Rust's own functions for benchmarks beside ours.
pub mod check;
mod dfm;
pub mod faults;
pub mod lists;
mod material;
pub mod math;
pub mod measures;
mod part;
pub mod sine;
pub mod solid;
mod text;

/// What dfm.rs imports by the name of its crate.
mod anvil_kernel {
    pub use crate::math::{v3, Vec3};
    pub use crate::solid::{FaceId, Solid, SurfaceKind};
}

/// The refusal from 1 to 9 that a file meets, 0 for none.
pub fn refusal(file: &[u8]) -> u32 {
    part::read(file).err().unwrap_or(0)
}

/// The body that the check takes, or the refusal from 1 to 9.
pub fn body(file: &[u8]) -> Result<solid::Solid, u32> {
    Ok(part::read(file)?.body)
}
