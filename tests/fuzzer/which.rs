//! Which of two libraries a call reaches: the product's, or the same code with the fuzzer's counters in it. The linker takes each call of the check to
//! the jump here (--wrap), which knows nothing of what is passed.
use std::arch::global_asm;

static mut REACHED: unsafe extern "C" fn() = __real_gablemadder_check;

global_asm!(
    ".globl __wrap_gablemadder_check",
    "__wrap_gablemadder_check:",
    "jmp qword ptr [rip + {reached}]",
    reached = sym REACHED,
);

extern "C" {
    fn __real_gablemadder_check();
    fn counted_gablemadder_check();
}

pub fn product() {
    unsafe { REACHED = __real_gablemadder_check };
}

pub fn counted() {
    unsafe { REACHED = counted_gablemadder_check };
}
