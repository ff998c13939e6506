//! Memory between two stretches of pages that can't be touched, so that a read or a write past either end is a crash, and the crash says which memory
//! it was. The C library's functions are declared by hand (x86-64 Linux).
use std::cell::Cell;
use std::ffi::{c_void, CStr};
use std::marker::PhantomData;
use std::ops::{Deref, DerefMut};
use std::ptr::{addr_of_mut, null_mut};
use std::sync::atomic::{AtomicUsize, Ordering::SeqCst};
use std::sync::Once;

/// Before and after; the page's size divides it.
const GUARD: usize = 1 << 16;
/// What is mapped is a multiple of it.
const ROOM: usize = 1 << 16;

mod c {
    use std::ffi::{c_char, c_void};

    pub const PROT_NONE: i32 = 0;
    pub const PROT_READ_WRITE: i32 = 3;
    pub const MAP_PRIVATE_ANONYMOUS: i32 = 0x22;
    pub const SIGSEGV: i32 = 11;
    pub const SA_SIGINFO: i32 = 4;
    pub const O_WRONLY_CREAT_TRUNC: i32 = 0o1101;

    #[repr(C)]
    pub struct Action {
        pub handler: usize,
        pub mask: [u64; 16],
        pub flags: i32,
        pub restorer: usize,
    }

    #[repr(C)]
    pub struct Info {
        pub numbers: [i32; 4],
        pub address: usize,
    }

    extern "C" {
        pub fn mmap(at: *mut c_void, len: usize, access: i32, flags: i32, file: i32, from: i64) -> *mut c_void;
        pub fn mprotect(at: *mut c_void, len: usize, access: i32) -> i32;
        pub fn munmap(at: *mut c_void, len: usize) -> i32;
        pub fn sigaction(signal: i32, new: *const Action, old: *mut Action) -> i32;
        pub fn open(path: *const c_char, flags: i32, mode: u32) -> i32;
        pub fn write(file: i32, bytes: *const c_void, len: usize) -> isize;
    }
}

/// Where a memory is, for the handler, which may not wait for a lock.
struct Place {
    start: AtomicUsize,
    end: AtomicUsize,
    name: AtomicUsize,
    name_len: AtomicUsize,
}

const NOWHERE: Place = Place { start: AtomicUsize::new(0), end: AtomicUsize::new(0), name: AtomicUsize::new(0), name_len: AtomicUsize::new(0) };
const MOST: usize = 1024;
static PLACES: [Place; MOST] = [NOWHERE; MOST];
static TAKEN: AtomicUsize = AtomicUsize::new(0);

static mut BEFORE: c::Action = c::Action { handler: 0, mask: [0; 16], flags: 0, restorer: 0 };
static WATCHED: Once = Once::new();

thread_local! {
    /// The file that is being checked: address and length.
    static FILE: Cell<(usize, usize)> = const { Cell::new((0, 0)) };
    /// Where the handler puts it.
    static KEPT: Cell<Option<&'static CStr>> = const { Cell::new(None) };
}

/// Where a crash of this thread is to put the file that it was over.
pub fn keep_at(path: &'static CStr) {
    KEPT.set(Some(path));
}

/// What is being checked from now on, for the handler.
pub fn checks(file: &[u8]) {
    FILE.set((file.as_ptr() as usize, file.len()));
}

/// So many cells at one of the two ends.
pub struct Guarded<T> {
    place: usize,
    /// The address of the first usable byte, and how many there are.
    start: usize,
    room: usize,
    at: usize,
    cells: usize,
    of: PhantomData<T>,
}

/// Of numbers, and structs of them, which any bytes are.
impl<T: Copy> Guarded<T> {
    pub fn new(name: &'static str) -> Guarded<T> {
        WATCHED.call_once(watch);
        let place = TAKEN.fetch_add(1, SeqCst);
        assert!(place < MOST, "more guarded memories than there are places");
        PLACES[place].name.store(name.as_ptr() as usize, SeqCst);
        PLACES[place].name_len.store(name.len(), SeqCst);
        let mut made = Guarded { place, start: 0, room: 0, at: 0, cells: 0, of: PhantomData };
        made.map(ROOM);
        made
    }

    /// So many cells directly before the pages past the end, or directly after those before the start. What they hold is left from before.
    pub fn lend(&mut self, cells: usize, last: bool) {
        let bytes = cells * size_of::<T>();
        if bytes > self.room {
            self.unmap();
            self.map((2 * bytes).next_multiple_of(ROOM));
        }
        self.at = self.start + if last { self.room - bytes } else { 0 };
        self.cells = cells;
    }

    fn map(&mut self, room: usize) {
        let whole = room + 2 * GUARD;
        let base = unsafe { c::mmap(null_mut(), whole, c::PROT_NONE, c::MAP_PRIVATE_ANONYMOUS, -1, 0) } as usize;
        assert!(base != usize::MAX, "mmap of {whole} bytes");
        (self.start, self.room) = (base + GUARD, room);
        (self.at, self.cells) = (self.start, 0);
        let opened = unsafe { c::mprotect(self.start as *mut c_void, room, c::PROT_READ_WRITE) };
        assert!(opened == 0, "mprotect of {room} bytes");
        PLACES[self.place].end.store(self.start + room, SeqCst);
        PLACES[self.place].start.store(self.start, SeqCst);
    }
}

impl<T> Guarded<T> {
    fn unmap(&mut self) {
        PLACES[self.place].start.store(0, SeqCst);
        unsafe { c::munmap((self.start - GUARD) as *mut c_void, self.room + 2 * GUARD) };
    }
}

impl<T> Drop for Guarded<T> {
    fn drop(&mut self) {
        self.unmap();
    }
}

impl<T> Deref for Guarded<T> {
    type Target = [T];

    fn deref(&self) -> &[T] {
        unsafe { std::slice::from_raw_parts(self.at as *const T, self.cells) }
    }
}

impl<T> DerefMut for Guarded<T> {
    fn deref_mut(&mut self) -> &mut [T] {
        unsafe { std::slice::from_raw_parts_mut(self.at as *mut T, self.cells) }
    }
}

fn watch() {
    let action = c::Action { handler: fault as *const () as usize, mask: [0; 16], flags: c::SA_SIGINFO, restorer: 0 };
    let set = unsafe { c::sigaction(c::SIGSEGV, &action, addr_of_mut!(BEFORE)) };
    assert!(set == 0, "sigaction");
}

/// Says what was touched, keeps the file, and leaves the rest to the handler that there was before: the access is tried again after it returns.
extern "C" fn fault(_signal: i32, info: *const c::Info, _context: *const c_void) {
    let address = unsafe { (*info).address };
    for place in &PLACES {
        let (start, end) = (place.start.load(SeqCst), place.end.load(SeqCst));
        if start != 0 && (start - GUARD..end + GUARD).contains(&address) {
            let name = unsafe { std::slice::from_raw_parts(place.name.load(SeqCst) as *const u8, place.name_len.load(SeqCst)) };
            let side: &[u8] = if address < start { b" before its start\n" } else { b" past its end\n" };
            [&b"guard: a call touches the lent memory `"[..], name, b"`", side].iter().for_each(|text| say(2, text));
        }
    }
    keep();
    unsafe { c::sigaction(c::SIGSEGV, addr_of_mut!(BEFORE), null_mut()) };
}

fn say(to: i32, text: &[u8]) {
    unsafe { c::write(to, text.as_ptr() as *const c_void, text.len()) };
}

fn keep() {
    let (Some(path), (file, len)) = (KEPT.get(), FILE.get()) else { return };
    let to = unsafe { c::open(path.as_ptr(), c::O_WRONLY_CREAT_TRUNC, 0o644) };
    if to >= 0 && file != 0 {
        say(to, unsafe { std::slice::from_raw_parts(file as *const u8, len) });
        [&b"guard: the file is in "[..], path.to_bytes(), b"\n"].iter().for_each(|text| say(2, text));
    }
}
