//! `fmaf` as rustc links it, on a processor that has no fused instruction: a jump through a pointer, to what it falls back on.

type Fused = unsafe extern "C" fn(f32, f32, f32) -> f32;

unsafe extern "C" {
    fn fmaf_fallback(a: f32, b: f32, c: f32) -> f32;
}

static FUSED: Fused = fmaf_fallback;

/// What a call of `fmaf` comes to by the linker's --wrap.
#[unsafe(no_mangle)]
unsafe extern "C" fn __wrap_fmaf(a: f32, b: f32, c: f32) -> f32 {
    unsafe { std::ptr::read_volatile(&FUSED)(a, b, c) }
}
