//! A checker allocates nothing after its first part, whatever the others need.
mod common;

use common::{cuboid, hollows, largest, part, plate, CNC, FDM, SLS};
use gablemadder::{Checker, MOST_ROWS};
use std::alloc::{GlobalAlloc, Layout, System};
use std::cell::Cell;

thread_local! {
    /// How often this thread has allocated.
    static ALLOCATIONS: Cell<usize> = const { Cell::new(0) };
}

fn count() {
    ALLOCATIONS.set(ALLOCATIONS.get() + 1);
}

struct Counting;

unsafe impl GlobalAlloc for Counting {
    unsafe fn alloc(&self, layout: Layout) -> *mut u8 {
        count();
        System.alloc(layout)
    }

    unsafe fn alloc_zeroed(&self, layout: Layout) -> *mut u8 {
        count();
        System.alloc_zeroed(layout)
    }

    unsafe fn realloc(&self, at: *mut u8, layout: Layout, size: usize) -> *mut u8 {
        count();
        System.realloc(at, layout, size)
    }

    unsafe fn dealloc(&self, at: *mut u8, layout: Layout) {
        System.dealloc(at, layout)
    }
}

#[global_allocator]
static COUNTING: Counting = Counting;

/// Checks a part and reads all of its report: findings, faces and letters.
fn read(checker: &mut Checker, file: &[u8]) -> usize {
    let Ok(report) = checker.check(file) else {
        return 0;
    };
    report.findings().map(|finding| finding.faces().count() + finding.message.len()).sum()
}

#[test]
fn nothing_is_allocated_after_the_first() {
    let (large, long) = (largest(CNC), hollows(MOST_ROWS - 1));
    let others = [
        part(FDM, &cuboid(2, [30.0, 2.0, 0.1])),
        part(CNC, &[]),
        vec![1; 7],
        hollows(64),
        large,
        long,
        hollows(MOST_ROWS),
        largest(SLS),
        hollows(700),
    ];
    let mut checker = Checker::new();
    let before = ALLOCATIONS.get();
    let first = read(&mut checker, &plate());
    let after = ALLOCATIONS.get();
    assert!(after > before);
    let mut seen = first;
    for file in others.iter() {
        seen += read(&mut checker, file);
    }
    assert_eq!(ALLOCATIONS.get(), after);
    assert!(seen > first);
}
