//! Refuses allocations of a program: a library that is loaded before the C library, and replaces its `malloc`,
//! `calloc` and `realloc`. REFUSED is the number of the one allocation to refuse, counted from 1, and REFUSED_FROM
//! that of the first to refuse with all later ones; each refusal writes a line to descriptor 9, if that is open.
//! `tests/refused.sh` builds it with `rustc --crate-type cdylib` and loads it with LD_PRELOAD. It needs the GNU C
//! library.

use std::ffi::{c_char, c_int, c_void, CStr};
use std::ptr::null_mut;
use std::sync::atomic::{AtomicU64, Ordering};

extern "C" {
    fn __libc_malloc(size: usize) -> *mut c_void;
    fn __libc_calloc(count: usize, size: usize) -> *mut c_void;
    fn __libc_realloc(old: *mut c_void, size: usize) -> *mut c_void;
    fn getenv(name: *const c_char) -> *const c_char;
    fn __errno_location() -> *mut c_int;
    fn atol(text: *const c_char) -> i64;
    fn write(descriptor: c_int, bytes: *const c_void, count: usize) -> isize;
}

/// The value of `errno` for out of memory.
const ENOMEM: c_int = 12;

/// The number of allocations so far.
static COUNT: AtomicU64 = AtomicU64::new(0);

/// Returns the number in a variable of the environment, 0 if there is none.
fn number_in(name: &CStr) -> u64 {
    unsafe {
        match getenv(name.as_ptr()) {
            text if text.is_null() => 0,
            text => atol(text) as u64,
        }
    }
}

/// True if this allocation is refused.
fn is_refused() -> bool {
    let number = COUNT.fetch_add(1, Ordering::SeqCst) + 1;
    let from = number_in(c"REFUSED_FROM");
    if number != number_in(c"REFUSED") && (from == 0 || number < from) {
        return false;
    }
    unsafe {
        write(9, b"refused\n".as_ptr().cast(), 8);
        *__errno_location() = ENOMEM;
    }
    true
}

/// Allocates as the C library does, unless refused.
#[no_mangle]
pub unsafe extern "C" fn malloc(size: usize) -> *mut c_void {
    match is_refused() {
        true => null_mut(),
        false => __libc_malloc(size),
    }
}

/// Allocates as the C library does, unless refused.
#[no_mangle]
pub unsafe extern "C" fn calloc(count: usize, size: usize) -> *mut c_void {
    match is_refused() {
        true => null_mut(),
        false => __libc_calloc(count, size),
    }
}

/// Reallocates as the C library does, unless refused.
#[no_mangle]
pub unsafe extern "C" fn realloc(old: *mut c_void, size: usize) -> *mut c_void {
    match is_refused() {
        true => null_mut(),
        false => __libc_realloc(old, size),
    }
}
