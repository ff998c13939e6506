//! The library's functions behind safe ones: all `unsafe` code of the package stands here. `tests/run header` of the repository compares the
//! declarations with the source of the library.
use crate::Refusal;

/// A fault while a check runs. The caller only lends the rows: they are all zero after a check, or as they were where refusals 1 to 10 turn the part
/// back.
#[repr(C)]
#[derive(Clone, Copy, Debug, Default, PartialEq)]
pub struct FaultRow {
    /// The rule and the message, from 1 on; 0 is no fault.
    pub kind: u32,
    /// 0 error, 1 warning, 2 note.
    pub severity: u32,
    /// How many faults it stands for.
    pub count: u32,
    /// A face by its number, or what the faces are found by.
    pub a: u32,
    /// The other face.
    pub b: u32,
    /// 0 while the fault stands.
    pub waived: u32,
    /// The first number that the message prints and the job does not give.
    pub x: f64,
    /// The second.
    pub y: f64,
    /// The third.
    pub z: f64,
}

const _: () = assert!(size_of::<FaultRow>() == 48);

mod c {
    use super::FaultRow;

    extern "C" {
        pub fn gablemadder_check(
            file: *const u8,
            file_len: usize,
            words: *mut u32,
            words_len: usize,
            reals: *mut f64,
            reals_len: usize,
            rows: *mut FaultRow,
            rows_len: usize,
            report: *mut u8,
            report_len: usize,
            written: *mut usize,
        ) -> u32;
        pub fn gablemadder_decimal(x: f64, places: u32, out: *mut u8, out_len: usize, written: *mut usize) -> u32;
        pub fn gablemadder_obj(
            text: *const u8,
            text_len: usize,
            job: *const u8,
            job_len: usize,
            out: *mut u8,
            out_len: usize,
            written: *mut usize,
        ) -> u32;
        pub fn gablemadder_sqrt(x: f64) -> f64;
        pub fn gablemadder_sqrt_bits(b: u64) -> u64;
    }
}

/// Checks a part with nothing but what is lent: its report stands in the first bytes of `report`, and their number is the answer.
///
/// `words` and `reals` are scratch, in the sizes that [`Scratch::of`](crate::Scratch::of) says; `rows` holds the faults, up to
/// [`MOST_ROWS`](crate::MOST_ROWS); [`MOST_REPORT`](crate::MOST_REPORT) bytes hold every report. What they hold before does not matter. After a report,
/// and after [`TooManyFaults`](Refusal::TooManyFaults) and [`ReportTooLong`](Refusal::ReportTooLong), all of `words`, `reals` and `rows` is zero; after
/// any other refusal they are as they were. `report` is changed only by a report, and only where that stands.
pub fn check_with(file: &[u8], words: &mut [u32], reals: &mut [f64], rows: &mut [FaultRow], report: &mut [u8]) -> Result<usize, Refusal> {
    let mut written = 0;
    // SAFETY: each pointer goes with the length of its slice, no two slices overlap, and the library touches nothing else.
    let answer = unsafe {
        c::gablemadder_check(
            file.as_ptr(),
            file.len(),
            words.as_mut_ptr(),
            words.len(),
            reals.as_mut_ptr(),
            reals.len(),
            rows.as_mut_ptr(),
            rows.len(),
            report.as_mut_ptr(),
            report.len(),
            &mut written,
        )
    };
    Refusal::or(answer, written)
}

/// Makes a part file of OBJ text with nothing but what is lent: it stands in the first bytes of `out`, and their number is the answer.
///
/// As many bytes as [`obj_room`](crate::obj_room) says are always enough. What [`obj_to_part`](crate::obj_to_part) says of texts and refusals holds here;
/// beside these, [`OutputTooShort`](Refusal::OutputTooShort) comes last. `out` is changed only by a part file, and only where that stands.
pub fn obj_to_part_with(text: &[u8], job: &[u8], out: &mut [u8]) -> Result<usize, Refusal> {
    let mut written = 0;
    // SAFETY: each pointer goes with the length of its slice, no two slices overlap, and the library touches nothing else.
    let answer = unsafe { c::gablemadder_obj(text.as_ptr(), text.len(), job.as_ptr(), job.len(), out.as_mut_ptr(), out.len(), &mut written) };
    Refusal::or(answer, written)
}

/// Writes x with so many places, at most 3, into the first bytes of `out`, of which there have to be 24: the exact value rounded, an exact half to the
/// even digit. The number of bytes.
///
/// ```
/// let mut out = [0; 24];
/// let length = gablemadder::decimal(0.125, 2, &mut out).unwrap();
/// assert_eq!(&out[..length], b"0.12");
/// assert_eq!(gablemadder::decimal(-1.0, 2, &mut out), Err(gablemadder::Refusal::NoDecimal));
/// ```
pub fn decimal(x: f64, places: u32, out: &mut [u8]) -> Result<usize, Refusal> {
    let mut written = 0;
    // SAFETY: the pointer goes with the length of its slice, and the library touches nothing else.
    let answer = unsafe { c::gablemadder_decimal(x, places, out.as_mut_ptr(), out.len(), &mut written) };
    Refusal::or(answer, written)
}

/// The f64 nearest to the exact root; -0.0 and infinity stay, NaN and other negative numbers give a NaN.
///
/// ```
/// assert_eq!(gablemadder::sqrt(2.0).to_bits(), 0x3FF6A09E667F3BCD);
/// ```
pub fn sqrt(x: f64) -> f64 {
    // SAFETY: numbers alone.
    unsafe { c::gablemadder_sqrt(x) }
}

/// The same by the number's bits; every NaN is hexadecimal 7FF8000000000000 then.
///
/// ```
/// assert_eq!(gablemadder::sqrt_bits((-1.0f64).to_bits()), 0x7FF8000000000000);
/// ```
pub fn sqrt_bits(b: u64) -> u64 {
    // SAFETY: numbers alone.
    unsafe { c::gablemadder_sqrt_bits(b) }
}
