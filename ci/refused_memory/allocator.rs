//! An allocator before the C library's, which refuses one request for memory of a program.
//!
//! `LD_PRELOAD` names it, and `REFUSED_REQUEST` says which request is refused; 1 is the first, and with none that it can
//! read it refuses none. A refusal is written to standard error as [`MARK`], and sets `errno`. All other requests go to the C
//! library, and so does every `free`. The program's runtime asks by `malloc` and `realloc` alone, `calloc` is what a compiler
//! may make of the first.
#![no_std]

use core::ffi::{c_char, c_int, c_void};
use core::panic::PanicInfo;
use core::ptr;
use core::sync::atomic::{AtomicI64, Ordering};

/// What a refusal writes.
const MARK: &[u8] = b"a request for memory was refused\n";
const STANDARD_ERROR: c_int = 2;
const ENOMEM: c_int = 12;

/// How many more requests are granted before the refused one; below zero after it, and where none is refused.
static GRANTED: AtomicI64 = AtomicI64::new(UNREAD);
/// What is there until the first request.
const UNREAD: i64 = i64::MAX;

#[link(name = "c")]
unsafe extern "C" {
    fn __errno_location() -> *mut c_int;
    fn __libc_calloc(count: usize, size: usize) -> *mut c_void;
    fn __libc_malloc(size: usize) -> *mut c_void;
    fn __libc_realloc(block: *mut c_void, size: usize) -> *mut c_void;
    fn atoll(text: *const c_char) -> i64;
    fn getenv(name: *const c_char) -> *const c_char;
    fn write(file: c_int, bytes: *const u8, count: usize) -> isize;
}

/// The program's `malloc`.
///
/// # Safety
///
/// As that of the C library; so of the other two.
#[unsafe(no_mangle)]
pub unsafe extern "C" fn malloc(size: usize) -> *mut c_void {
    if is_refused() {
        return ptr::null_mut();
    }
    // SAFETY: the caller keeps to what the C library asks.
    unsafe { __libc_malloc(size) }
}

/// The program's `calloc`.
///
/// # Safety
///
/// As that of the C library.
#[unsafe(no_mangle)]
pub unsafe extern "C" fn calloc(count: usize, size: usize) -> *mut c_void {
    if is_refused() {
        return ptr::null_mut();
    }
    // SAFETY: the caller keeps to what the C library asks.
    unsafe { __libc_calloc(count, size) }
}

/// The program's `realloc`: refused, it leaves the block as it is.
///
/// # Safety
///
/// As that of the C library.
#[unsafe(no_mangle)]
pub unsafe extern "C" fn realloc(block: *mut c_void, size: usize) -> *mut c_void {
    if is_refused() {
        return ptr::null_mut();
    }
    // SAFETY: the caller keeps to what the C library asks.
    unsafe { __libc_realloc(block, size) }
}

/// Counts a request, and says whether it is the one that is refused.
fn is_refused() -> bool {
    if GRANTED.load(Ordering::Relaxed) == UNREAD {
        GRANTED.store(wanted() - 1, Ordering::Relaxed);
    }
    if GRANTED.fetch_sub(1, Ordering::Relaxed) != 0 {
        return false;
    }
    // SAFETY: the bytes are as many as the call says, and the place of `errno` is the thread's.
    unsafe {
        write(STANDARD_ERROR, MARK.as_ptr(), MARK.len());
        *__errno_location() = ENOMEM;
    }
    true
}

/// The request that is to be refused, 0 for none.
fn wanted() -> i64 {
    // SAFETY: the name ends with a zero, and so does what is found; neither call asks for memory.
    unsafe {
        match getenv(c"REFUSED_REQUEST".as_ptr()) {
            text if text.is_null() => 0,
            text => atoll(text),
        }
    }
}

#[panic_handler]
fn panic(_: &PanicInfo<'_>) -> ! {
    loop {}
}
