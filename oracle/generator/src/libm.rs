//! The C library's own functions. A name that is declared `extern "C"` is met by the copy that Rust
//! brings (compiler_builtins), so the library's are looked up at run time.

use std::ffi::{CStr, c_char, c_int, c_void};
use std::mem::transmute;

unsafe extern "C" {
    fn dlopen(file: *const c_char, mode: c_int) -> *mut c_void;
    fn dlsym(library: *mut c_void, name: *const c_char) -> *mut c_void;
}

const RTLD_NOW: c_int = 2;

fn find(name: &CStr) -> *mut c_void {
    // SAFETY: both strings end in 0; the library's start-up code is the C library's own.
    let found = unsafe { dlsym(dlopen(c"libm.so.6".as_ptr(), RTLD_NOW), name.as_ptr()) };
    assert!(!found.is_null(), "no {name:?} in libm.so.6");
    found
}

pub fn cbrtf() -> extern "C" fn(f32) -> f32 {
    // SAFETY: this is its type in math.h.
    unsafe { transmute(find(c"cbrtf")) }
}

pub fn fmaf() -> extern "C" fn(f32, f32, f32) -> f32 {
    // SAFETY: this is its type in math.h.
    unsafe { transmute(find(c"fmaf")) }
}
