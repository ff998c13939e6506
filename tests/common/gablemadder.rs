//! The functions of `crates/exports`, and those of `crates/probe`, as Rust sees them. Nothing checks these declarations against the
//! Rattle source, so they are few and plain: numbers pass as themselves, a slice as a pointer and a length. A test links the libraries that it calls.
//! They are inlined, so that a benchmark times no call but the library's.

mod c {
    use super::FaultRow;

    /// A function that takes a part file and scratch, and these.
    macro_rules! of_file {
        ($name:ident($($more:ident: $kind:ty),*)) => {
            extern "C" {
                pub fn $name(
                    file: *const u8,
                    file_len: usize,
                    words: *mut u32,
                    words_len: usize,
                    reals: *mut f64,
                    reals_len: usize,
                    $($more: $kind),*
                ) -> u32;
            }
        };
    }

    of_file!(gablemadder_check(rows: *mut FaultRow, rows_len: usize, report: *mut u8, report_len: usize, written: *mut usize));
    of_file!(gablemadder_sample_list(faces: *mut u32, faces_len: usize, numbers: *mut f64, numbers_len: usize));
    of_file!(gablemadder_open_towards(rays: *const f64, rays_len: usize, cells: *mut u32, cells_len: usize));
    of_file!(gablemadder_put_tree());
    of_file!(gablemadder_raycast(rays: *const f64, rays_len: usize, polygons: *mut u32, polygons_len: usize, times: *mut f64, times_len: usize));

    extern "C" {
        pub fn gablemadder_obj(
            text: *const u8,
            text_len: usize,
            job: *const u8,
            job_len: usize,
            out: *mut u8,
            out_len: usize,
            written: *mut usize,
        ) -> u32;
        pub fn gablemadder_sqrt(x: f64) -> f64;
        pub fn gablemadder_sqrt_bits(b: u64) -> u64;
        pub fn gablemadder_sqrt_each(values: *mut f64, len: usize);
        pub fn gablemadder_round_i64(x: f64) -> i64;
        pub fn gablemadder_ceil_usize(x: f64) -> usize;
        pub fn gablemadder_min(a: f64, b: f64) -> f64;
        pub fn gablemadder_max(a: f64, b: f64) -> f64;
        pub fn gablemadder_abs(x: f64) -> f64;
        pub fn gablemadder_sine_entry(tenths: u32) -> u64;
        pub fn gablemadder_sine(tenths: u32) -> f64;
        pub fn gablemadder_decimal(x: f64, places: u32, out: *mut u8, len: usize, written: *mut usize) -> u32;
        pub fn gablemadder_put_bytes(out: *mut u8, len: usize, at: usize, s: *const u8, n: usize) -> usize;
        pub fn gablemadder_put_number(out: *mut u8, len: usize, at: usize, n: u64) -> usize;
        pub fn gablemadder_put_hex(out: *mut u8, len: usize, at: usize, bits: u64) -> usize;
        pub fn gablemadder_put_thousandths(out: *mut u8, len: usize, at: usize, n: u64) -> usize;
        pub fn gablemadder_put_decimal(out: *mut u8, len: usize, at: usize, x: f64, places: u32) -> usize;
    }
}

/// A fault row. A row of zeros is no fault.
#[repr(C)]
#[derive(Clone, Copy, Default)]
pub struct FaultRow {
    pub kind: u32,
    pub severity: u32,
    pub count: u32,
    pub a: u32,
    pub b: u32,
    pub waived: u32,
    pub x: f64,
    pub y: f64,
    pub z: f64,
}

const _: () = assert!(std::mem::size_of::<FaultRow>() == 48 && std::mem::align_of::<FaultRow>() == 8);

#[inline]
pub fn sqrt(x: f64) -> f64 {
    unsafe { c::gablemadder_sqrt(x) }
}

#[inline]
pub fn sqrt_bits(b: u64) -> u64 {
    unsafe { c::gablemadder_sqrt_bits(b) }
}

#[inline]
pub fn sqrt_each(values: &mut [f64]) {
    unsafe { c::gablemadder_sqrt_each(values.as_mut_ptr(), values.len()) }
}

#[inline]
pub fn round_i64(x: f64) -> i64 {
    unsafe { c::gablemadder_round_i64(x) }
}

#[inline]
pub fn ceil_usize(x: f64) -> usize {
    unsafe { c::gablemadder_ceil_usize(x) }
}

#[inline]
pub fn min(a: f64, b: f64) -> f64 {
    unsafe { c::gablemadder_min(a, b) }
}

#[inline]
pub fn max(a: f64, b: f64) -> f64 {
    unsafe { c::gablemadder_max(a, b) }
}

#[inline]
pub fn abs(x: f64) -> f64 {
    unsafe { c::gablemadder_abs(x) }
}

#[inline]
pub fn sine_entry(tenths: u32) -> u64 {
    unsafe { c::gablemadder_sine_entry(tenths) }
}

#[inline]
pub fn sine(tenths: u32) -> f64 {
    unsafe { c::gablemadder_sine(tenths) }
}

/// The decimal text in the first bytes of `out`, and its length; or the refusal's number, 13.
#[inline]
pub fn decimal(x: f64, places: u32, out: &mut [u8]) -> Result<usize, u32> {
    let mut written = 0;
    match unsafe { c::gablemadder_decimal(x, places, out.as_mut_ptr(), out.len(), &mut written) } {
        0 => Ok(written),
        refusal => Err(refusal),
    }
}

/// 0, the report in the first bytes of `report` and their number in `written`; or the refusal from 1 to 12.
#[inline]
pub fn check(file: &[u8], words: &mut [u32], reals: &mut [f64], rows: &mut [FaultRow], report: &mut [u8], written: &mut usize) -> u32 {
    let (w, r, f, o) = (words.as_mut_ptr(), reals.as_mut_ptr(), rows.as_mut_ptr(), report.as_mut_ptr());
    unsafe { c::gablemadder_check(file.as_ptr(), file.len(), w, words.len(), r, reals.len(), f, rows.len(), o, report.len(), written) }
}

/// The refusal from 1 to 9 that turns a part file back, or 10: it is lent nothing.
#[inline]
pub fn refusal(file: &[u8]) -> u32 {
    check(file, &mut [], &mut [], &mut [], &mut [], &mut 0)
}

/// 0, the part file of OBJ text in the first bytes of `out` and their number in `written`; or the refusal: 14, 15, 3, 5 or 16.
#[inline]
pub fn obj(text: &[u8], job: &[u8], out: &mut [u8], written: &mut usize) -> u32 {
    unsafe { c::gablemadder_obj(text.as_ptr(), text.len(), job.as_ptr(), job.len(), out.as_mut_ptr(), out.len(), written) }
}

#[inline]
pub fn put_bytes(out: &mut [u8], at: usize, s: &[u8]) -> usize {
    unsafe { c::gablemadder_put_bytes(out.as_mut_ptr(), out.len(), at, s.as_ptr(), s.len()) }
}

#[inline]
pub fn put_number(out: &mut [u8], at: usize, n: u64) -> usize {
    unsafe { c::gablemadder_put_number(out.as_mut_ptr(), out.len(), at, n) }
}

#[inline]
pub fn put_hex(out: &mut [u8], at: usize, bits: u64) -> usize {
    unsafe { c::gablemadder_put_hex(out.as_mut_ptr(), out.len(), at, bits) }
}

#[inline]
pub fn put_thousandths(out: &mut [u8], at: usize, n: u64) -> usize {
    unsafe { c::gablemadder_put_thousandths(out.as_mut_ptr(), out.len(), at, n) }
}

#[inline]
pub fn put_decimal(out: &mut [u8], at: usize, x: f64, places: u32) -> usize {
    unsafe { c::gablemadder_put_decimal(out.as_mut_ptr(), out.len(), at, x, places) }
}

/// Of each ray (origin, direction) the polygon that it strikes and how far along, after the body in the scratch, and 0; or the refusal from 1 to 10.
#[inline]
pub fn raycast(file: &[u8], words: &mut [u32], reals: &mut [f64], rays: &[f64], polygons: &mut [u32], times: &mut [f64]) -> u32 {
    let (w, f, r, k, t) = (words.as_mut_ptr(), reals.as_mut_ptr(), rays.as_ptr(), polygons.as_mut_ptr(), times.as_mut_ptr());
    let (words, reals) = (words.len(), reals.len());
    unsafe { c::gablemadder_raycast(file.as_ptr(), file.len(), w, words, f, reals, r, rays.len(), k, polygons.len(), t, times.len()) }
}

/// Of the readings: their number, then two cells for each, and eight numbers for each.
#[inline]
pub fn sample_list(file: &[u8], words: &mut [u32], reals: &mut [f64], faces: &mut [u32], numbers: &mut [f64]) -> u32 {
    let (w, r, f, n) = (words.as_mut_ptr(), reals.as_mut_ptr(), faces.as_mut_ptr(), numbers.as_mut_ptr());
    unsafe { c::gablemadder_sample_list(file.as_ptr(), file.len(), w, words.len(), r, reals.len(), f, faces.len(), n, numbers.len()) }
}

/// The tree of boxes alone, in the first cells of the scratch, and 0; or the refusal from 1 to 10.
#[inline]
pub fn put_tree(file: &[u8], words: &mut [u32], reals: &mut [f64]) -> u32 {
    unsafe { c::gablemadder_put_tree(file.as_ptr(), file.len(), words.as_mut_ptr(), words.len(), reals.as_mut_ptr(), reals.len()) }
}

/// Of each ray 1 where the line leaves the part, else 0, after the body in the scratch.
#[inline]
pub fn open_towards(file: &[u8], words: &mut [u32], reals: &mut [f64], rays: &[f64], cells: &mut [u32]) -> u32 {
    let (w, f, r, o) = (words.as_mut_ptr(), reals.as_mut_ptr(), rays.as_ptr(), cells.as_mut_ptr());
    unsafe { c::gablemadder_open_towards(file.as_ptr(), file.len(), w, words.len(), f, reals.len(), r, rays.len(), o, cells.len()) }
}
