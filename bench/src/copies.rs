//! How much memory a call of the library copies: its own object, linked a second time with these functions in the place of the C
//! library's. Loops over the bytes, and copies so short that the compiler writes them out, are not seen here.
use std::sync::atomic::{AtomicUsize, Ordering::Relaxed};

/// A copy of this many bytes or more is one of a whole table.
static TABLE: AtomicUsize = AtomicUsize::new(0);
static TABLES: AtomicUsize = AtomicUsize::new(0);
static BYTES: AtomicUsize = AtomicUsize::new(0);

fn note(length: usize) {
    TABLES.fetch_add(usize::from(length >= TABLE.load(Relaxed)), Relaxed);
    BYTES.fetch_add(length, Relaxed);
}

#[no_mangle]
unsafe extern "C" fn counting_memcpy(to: *mut u8, from: *const u8, length: usize) -> *mut u8 {
    note(length);
    // SAFETY: as for memcpy.
    unsafe { std::ptr::copy_nonoverlapping(from, to, length) };
    to
}

#[no_mangle]
unsafe extern "C" fn counting_memmove(to: *mut u8, from: *const u8, length: usize) -> *mut u8 {
    note(length);
    // SAFETY: as for memmove.
    unsafe { std::ptr::copy(from, to, length) };
    to
}

#[no_mangle]
unsafe extern "C" fn counting_memset(to: *mut u8, value: i32, length: usize) -> *mut u8 {
    // SAFETY: as for memset. Nothing is copied.
    unsafe { std::ptr::write_bytes(to, value as u8, length) };
    to
}

/// What a call copies: how many times a table of that many bytes, and the bytes in all.
pub fn copied(table: usize, call: impl FnOnce()) -> [usize; 2] {
    TABLE.store(table, Relaxed);
    TABLES.store(0, Relaxed);
    BYTES.store(0, Relaxed);
    call();
    [TABLES.load(Relaxed), BYTES.load(Relaxed)]
}
