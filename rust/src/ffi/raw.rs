//! The functions of `include/rindsaddle.h`, in its order. An array is a pointer, and a slice is a pointer and a length.

/// From three byte channels to three others.
pub type BytesToBytes =
    unsafe extern "C" fn(u32, *const u8, usize, *const u8, usize, *const u8, usize, *mut u8, usize, *mut u8, usize, *mut u8, usize) -> u8;

#[rustfmt::skip]
extern "C" {
    pub fn rindsaddle_mul_add(a: f32, b: f32, c: f32) -> f32;
    pub fn rindsaddle_cbrt(x: f32) -> f32;
    pub fn rindsaddle_icc_channels(profile: *const u8, size: usize) -> u8;

    pub fn rindsaddle_plan(source: *const i32, target: *const i32, settings: *const f32, detect_peak: u8, from_pq: u8, version: u16,
                           out: *mut u8, room: usize, told: *mut u64) -> u8;
    pub fn rindsaddle_read(block: *const u8, size: usize, told: *mut u64) -> u8;
    pub fn rindsaddle_check(block: *const u8, size: usize, told: *mut u64) -> u8;
    pub fn rindsaddle_merge(block: *const u8, size: usize, out: *mut u8, room: usize, told: *mut u64) -> u8;
    pub fn rindsaddle_rewrite(block: *const u8, size: usize, version: u16, out: *mut u8, room: usize, told: *mut u64) -> u8;
    pub fn rindsaddle_join(first: *const u8, first_size: usize, second: *const u8, second_size: usize, version: u16,
                           out: *mut u8, room: usize, told: *mut u64) -> u8;
    pub fn rindsaddle_text(block: *const u8, size: usize, out: *mut u8) -> usize;

    pub fn rindsaddle_run(block: *const u8, size: usize, a: *mut f32, a_count: usize, b: *mut f32, b_count: usize, c: *mut f32, c_count: usize,
                          told: *mut u64) -> u8;
    pub fn rindsaddle_open(block: *const u8, size: usize, state: *mut u64, told: *mut u64) -> u8;
    pub fn rindsaddle_strip(block: *const u8, size: usize, state: *mut u64,
                            a: *mut f32, a_count: usize, b: *mut f32, b_count: usize, c: *mut f32, c_count: usize, told: *mut u64) -> u8;
    pub fn rindsaddle_close(block: *const u8, size: usize, state: *mut u64, told: *mut u64) -> u8;

    pub fn rindsaddle_xyb_to_mixed_lms(opsin_bias: *const f32, intensity_target: f32,
                                       x: *mut f32, x_count: usize, y: *mut f32, y_count: usize, b: *mut f32, b_count: usize) -> u8;
    pub fn rindsaddle_matrix(matrix: *const f32, a: *mut f32, a_count: usize, b: *mut f32, b_count: usize, c: *mut f32, c_count: usize) -> u8;
    pub fn rindsaddle_luma_to_xyz(x: f32, y: f32, a: *mut f32, a_count: usize, b: *mut f32, b_count: usize, c: *mut f32, c_count: usize) -> u8;
    pub fn rindsaddle_xyz_to_luma(a: *mut f32, a_count: usize, b: *const f32, b_count: usize, c: *const f32, c_count: usize) -> u8;
    pub fn rindsaddle_clip(width: u8, a: *mut f32, a_count: usize, b: *mut f32, b_count: usize, c: *mut f32, c_count: usize) -> u8;
    pub fn rindsaddle_unchanged(width: u8, a: *const f32, a_count: usize, b: *const f32, b_count: usize, c: *const f32, c_count: usize) -> u8;
    pub fn rindsaddle_count(width: u8, a: *const f32, a_count: usize, b: *const f32, b_count: usize, c: *const f32, c_count: usize) -> u64;

    pub fn rindsaddle_ycbcr(firmware: u32, cb: *mut f32, cb_count: usize, y: *mut f32, y_count: usize, cr: *mut f32, cr_count: usize) -> u8;
    pub fn rindsaddle_ycbcr_bytes(firmware: u32,
                                  cb: *const u8, cb_count: usize, y: *const u8, y_count: usize, cr: *const u8, cr_count: usize,
                                  r: *mut u8, r_count: usize, g: *mut u8, g_count: usize, b: *mut u8, b_count: usize) -> u8;
    pub fn rindsaddle_rgb_bytes(firmware: u32,
                                r: *const u8, r_count: usize, g: *const u8, g_count: usize, b: *const u8, b_count: usize,
                                cb: *mut u8, cb_count: usize, y: *mut u8, y_count: usize, cr: *mut u8, cr_count: usize) -> u8;
    pub fn rindsaddle_widen(line: *const u8, count: usize, out: *mut u8, room: usize) -> u8;
    pub fn rindsaddle_narrow(line: *const u8, count: usize, out: *mut u8, room: usize) -> u8;
    pub fn rindsaddle_line_bytes(firmware: u32,
                                 cb: *const u8, cb_count: usize, y: *const u8, y_count: usize, cr: *const u8, cr_count: usize,
                                 r: *mut u8, r_count: usize, g: *mut u8, g_count: usize, b: *mut u8, b_count: usize) -> u8;
    pub fn rindsaddle_screen_bytes(samples: *const f32, count: usize, bytes: *mut u8, room: usize) -> u8;

    pub fn rindsaddle_level(code: u16) -> u16;
    pub fn rindsaddle_code(level: u16) -> u16;
    pub fn rindsaddle_code_levels(codes: *const u16, count: usize, levels: *mut f32, room: usize) -> u8;
}
