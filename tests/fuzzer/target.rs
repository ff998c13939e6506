//! What the fuzzer calls: each input is a part file, whose answer and lent buffers are compared with the patched Rust's. The lending hangs on the file alone.
#![no_main]
mod mend;
mod mutate;
mod one;
mod points;
mod which;

use against::compare::Compare;
use common::random::Random;
use std::cell::RefCell;

thread_local! {
    static COMPARE: RefCell<Option<Compare>> = const { RefCell::new(None) };
}

extern "C" {
    fn LLVMFuzzerMutate(data: *mut u8, len: usize, most: usize) -> usize;
}

/// One input. A difference is said and ends the process, so that the fuzzer keeps the file.
#[no_mangle]
pub extern "C" fn LLVMFuzzerTestOneInput(data: *const u8, len: usize) -> i32 {
    let file = unsafe { slice(data, len) };
    COMPARE.with_borrow_mut(|compare| {
        let compare = compare.get_or_insert_with(|| Compare::new(1));
        if let Err(what) = one::check(compare, file) {
            eprintln!("fuzz: a difference, {} bytes: {what}", file.len());
            std::process::abort();
        }
    });
    0
}

/// A changed copy in the place of the file.
#[no_mangle]
pub extern "C" fn LLVMFuzzerCustomMutator(data: *mut u8, len: usize, most: usize, seed: u32) -> usize {
    let file = unsafe { slice(data, len) };
    let mut random = Random((len as u64) << 32 | u64::from(seed));
    match mutate::changed(&mut random, file, most, plain) {
        Some(made) => put(&made, data, most),
        None => unsafe { LLVMFuzzerMutate(data, len, most) },
    }
}

/// Something of each of two files.
#[no_mangle]
pub extern "C" fn LLVMFuzzerCustomCrossOver(a: *const u8, a_len: usize, b: *const u8, b_len: usize, out: *mut u8, most: usize, seed: u32) -> usize {
    let (a, b) = unsafe { (slice(a, a_len), slice(b, b_len)) };
    let mut random = Random((a_len as u64) << 32 | u64::from(seed));
    match mutate::crossed(&mut random, a, b) {
        Some(made) if made.len() <= most => put(&made, out, most),
        _ => 0,
    }
}

/// libFuzzer's own changes, of the dictionary and of what was compared among them; of bytes as long as before, or not.
fn plain(bytes: &[u8], most: usize) -> Vec<u8> {
    let mut made = bytes.to_vec();
    made.resize(most.max(bytes.len()), 0);
    let len = unsafe { LLVMFuzzerMutate(made.as_mut_ptr(), bytes.len(), made.len()) };
    made.truncate(len);
    made
}

fn put(made: &[u8], to: *mut u8, most: usize) -> usize {
    let len = made.len().min(most);
    unsafe { std::ptr::copy_nonoverlapping(made.as_ptr(), to, len) };
    len
}

/// Of no bytes the pointer may be null.
unsafe fn slice<'a>(data: *const u8, len: usize) -> &'a [u8] {
    if len == 0 {
        return &[];
    }
    std::slice::from_raw_parts(data, len)
}
