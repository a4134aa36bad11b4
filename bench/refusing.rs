//! A library that is loaded before the C library and refuses requests for memory. The environment says which: REFUSED
//! is the number of the first one, from 1, and REFUSED_LAST that of the last. With the first it writes a byte to the
//! file descriptor under REFUSED_NOTICE.
#![no_std]
use core::ffi::{CStr, c_char, c_int, c_void};
use core::ptr::null_mut;
use core::sync::atomic::{AtomicU64, Ordering::Relaxed};

unsafe extern "C" {
    fn __libc_malloc(size: usize) -> *mut c_void;
    fn __libc_realloc(old: *mut c_void, size: usize) -> *mut c_void;
    fn getenv(name: *const c_char) -> *const c_char;
    fn strtoull(text: *const c_char, end: *mut *mut c_char, base: c_int) -> u64;
    fn write(file: c_int, bytes: *const c_void, count: usize) -> isize;
}

static REQUESTS: AtomicU64 = AtomicU64::new(0);

#[unsafe(no_mangle)]
unsafe extern "C" fn malloc(size: usize) -> *mut c_void {
    if is_refused() { null_mut() } else { unsafe { __libc_malloc(size) } }
}

#[unsafe(no_mangle)]
unsafe extern "C" fn realloc(old: *mut c_void, size: usize) -> *mut c_void {
    if is_refused() { null_mut() } else { unsafe { __libc_realloc(old, size) } }
}

fn is_refused() -> bool {
    let request = 1 + REQUESTS.fetch_add(1, Relaxed);
    let first = number(c"REFUSED");
    if request == first {
        unsafe { write(number(c"REFUSED_NOTICE") as c_int, c"!".as_ptr().cast(), 1) };
    }
    (first..=number(c"REFUSED_LAST")).contains(&request)
}

fn number(name: &CStr) -> u64 {
    let text = unsafe { getenv(name.as_ptr()) };
    if text.is_null() { 0 } else { unsafe { strtoull(text, null_mut(), 10) } }
}

#[panic_handler]
fn panic(_: &core::panic::PanicInfo) -> ! {
    loop {}
}
