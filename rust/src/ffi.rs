//! The C functions of the archive, each behind a safe function: the only module with `unsafe`.
//!
//! They are proved for every input, so nothing is asked of the numbers and bytes that cross. What `include/rindsaddle.h` asks of pointers, a Rust
//! slice or array gives by itself: it is aligned, not null and valid for its length, and what is lent as `&mut` overlaps nothing else.

mod raw;

use raw::*;

/// What is told of a call: four numbers, the first of them its answer.
pub type Told = [u64; 4];

/// Three lent channels of floats.
pub type Channels<'a> = [&'a mut [f32]; 3];

pub fn mul_add(a: f32, b: f32, c: f32) -> f32 {
    // SAFETY: numbers alone.
    unsafe { rindsaddle_mul_add(a, b, c) }
}

pub fn cbrt(x: f32) -> f32 {
    // SAFETY: a number alone.
    unsafe { rindsaddle_cbrt(x) }
}

pub fn level(code: u16) -> u16 {
    // SAFETY: a number alone.
    unsafe { rindsaddle_level(code) }
}

pub fn code(level: u16) -> u16 {
    // SAFETY: a number alone.
    unsafe { rindsaddle_code(level) }
}

pub fn icc_channels(profile: &[u8]) -> u8 {
    // SAFETY: a slice that is read.
    unsafe { rindsaddle_icc_channels(profile.as_ptr(), profile.len()) }
}

pub fn code_levels(codes: &[u16], levels: &mut [f32]) -> u8 {
    // SAFETY: a slice that is read and one that is written, each with its length.
    unsafe { rindsaddle_code_levels(codes.as_ptr(), codes.len(), levels.as_mut_ptr(), levels.len()) }
}

pub fn screen_bytes(samples: &[f32], bytes: &mut [u8]) -> u8 {
    // SAFETY: a slice that is read and one that is written, each with its length.
    unsafe { rindsaddle_screen_bytes(samples.as_ptr(), samples.len(), bytes.as_mut_ptr(), bytes.len()) }
}

pub fn widen(line: &[u8], out: &mut [u8]) -> u8 {
    // SAFETY: a slice that is read and one that is written, each with its length.
    unsafe { rindsaddle_widen(line.as_ptr(), line.len(), out.as_mut_ptr(), out.len()) }
}

pub fn narrow(line: &[u8], out: &mut [u8]) -> u8 {
    // SAFETY: a slice that is read and one that is written, each with its length.
    unsafe { rindsaddle_narrow(line.as_ptr(), line.len(), out.as_mut_ptr(), out.len()) }
}

/// Calls one of the three functions from three byte channels to three others.
fn bytes(call: BytesToBytes, firmware: u32, [a, b, c]: [&[u8]; 3], [d, e, f]: [&mut [u8]; 3]) -> u8 {
    let (d_count, e_count, f_count) = (d.len(), e.len(), f.len());
    let (d, e, f) = (d.as_mut_ptr(), e.as_mut_ptr(), f.as_mut_ptr());
    // SAFETY: three slices that are read and three that are written, each with its length; only functions of the archive have this type here.
    unsafe { call(firmware, a.as_ptr(), a.len(), b.as_ptr(), b.len(), c.as_ptr(), c.len(), d, d_count, e, e_count, f, f_count) }
}

pub fn ycbcr_bytes(firmware: u32, cb_y_cr: [&[u8]; 3], rgb: [&mut [u8]; 3]) -> u8 {
    bytes(rindsaddle_ycbcr_bytes, firmware, cb_y_cr, rgb)
}

pub fn rgb_bytes(firmware: u32, rgb: [&[u8]; 3], cb_y_cr: [&mut [u8]; 3]) -> u8 {
    bytes(rindsaddle_rgb_bytes, firmware, rgb, cb_y_cr)
}

pub fn line_bytes(firmware: u32, cb_y_cr: [&[u8]; 3], rgb: [&mut [u8]; 3]) -> u8 {
    bytes(rindsaddle_line_bytes, firmware, cb_y_cr, rgb)
}

pub fn ycbcr(firmware: u32, [cb, y, cr]: Channels) -> u8 {
    // SAFETY: three slices that are written, each with its length.
    unsafe { rindsaddle_ycbcr(firmware, cb.as_mut_ptr(), cb.len(), y.as_mut_ptr(), y.len(), cr.as_mut_ptr(), cr.len()) }
}

pub fn xyb_to_mixed_lms(opsin_bias: &[f32; 3], intensity_target: f32, [x, y, b]: Channels) -> u8 {
    let bias = opsin_bias.as_ptr();
    // SAFETY: an array of three, and three slices that are written, each with its length.
    unsafe { rindsaddle_xyb_to_mixed_lms(bias, intensity_target, x.as_mut_ptr(), x.len(), y.as_mut_ptr(), y.len(), b.as_mut_ptr(), b.len()) }
}

pub fn matrix(matrix: &[f32; 9], [a, b, c]: Channels) -> u8 {
    // SAFETY: an array of nine, and three slices that are written, each with its length.
    unsafe { rindsaddle_matrix(matrix.as_ptr(), a.as_mut_ptr(), a.len(), b.as_mut_ptr(), b.len(), c.as_mut_ptr(), c.len()) }
}

pub fn luma_to_xyz([x, y]: [f32; 2], [a, b, c]: Channels) -> u8 {
    // SAFETY: three slices that are written, each with its length.
    unsafe { rindsaddle_luma_to_xyz(x, y, a.as_mut_ptr(), a.len(), b.as_mut_ptr(), b.len(), c.as_mut_ptr(), c.len()) }
}

pub fn xyz_to_luma(a: &mut [f32], b: &[f32], c: &[f32]) -> u8 {
    // SAFETY: a slice that is written and two that are read, each with its length.
    unsafe { rindsaddle_xyz_to_luma(a.as_mut_ptr(), a.len(), b.as_ptr(), b.len(), c.as_ptr(), c.len()) }
}

pub fn clip(width: u8, [a, b, c]: Channels) -> u8 {
    // SAFETY: three slices that are written, each with its length.
    unsafe { rindsaddle_clip(width, a.as_mut_ptr(), a.len(), b.as_mut_ptr(), b.len(), c.as_mut_ptr(), c.len()) }
}

pub fn unchanged(width: u8, [a, b, c]: [&[f32]; 3]) -> u8 {
    // SAFETY: three slices that are read, each with its length.
    unsafe { rindsaddle_unchanged(width, a.as_ptr(), a.len(), b.as_ptr(), b.len(), c.as_ptr(), c.len()) }
}

pub fn count(width: u8, [a, b, c]: [&[f32]; 3]) -> u64 {
    // SAFETY: three slices that are read, each with its length.
    unsafe { rindsaddle_count(width, a.as_ptr(), a.len(), b.as_ptr(), b.len(), c.as_ptr(), c.len()) }
}

/// The encodings, the settings, whether to detect the peak and whether from PQ, and the version.
pub fn plan(sides: [&[i32; 14]; 2], settings: &[f32; 14], flags: [bool; 2], version: u16, out: &mut [u8]) -> Told {
    let mut told = [0; 4];
    let [source, target] = sides.map(|side| side.as_ptr());
    let [peak, pq] = flags.map(u8::from);
    // SAFETY: three arrays of fourteen, a slice that is written with its length, and four numbers of our own that are written.
    unsafe { rindsaddle_plan(source, target, settings.as_ptr(), peak, pq, version, out.as_mut_ptr(), out.len(), told.as_mut_ptr()) };
    told
}

pub fn read(block: &[u8]) -> Told {
    let mut told = [0; 4];
    // SAFETY: a slice that is read with its length, and four numbers of our own that are written.
    unsafe { rindsaddle_read(block.as_ptr(), block.len(), told.as_mut_ptr()) };
    told
}

pub fn check(block: &[u8]) -> Told {
    let mut told = [0; 4];
    // SAFETY: a slice that is read with its length, and four numbers of our own that are written.
    unsafe { rindsaddle_check(block.as_ptr(), block.len(), told.as_mut_ptr()) };
    told
}

pub fn merge(block: &[u8], out: &mut [u8]) -> Told {
    let mut told = [0; 4];
    // SAFETY: a slice that is read and one that is written, each with its length, and four numbers of our own that are written.
    unsafe { rindsaddle_merge(block.as_ptr(), block.len(), out.as_mut_ptr(), out.len(), told.as_mut_ptr()) };
    told
}

pub fn rewrite(block: &[u8], version: u16, out: &mut [u8]) -> Told {
    let mut told = [0; 4];
    // SAFETY: a slice that is read and one that is written, each with its length, and four numbers of our own that are written.
    unsafe { rindsaddle_rewrite(block.as_ptr(), block.len(), version, out.as_mut_ptr(), out.len(), told.as_mut_ptr()) };
    told
}

pub fn join(first: &[u8], second: &[u8], version: u16, out: &mut [u8]) -> Told {
    let mut told = [0; 4];
    let (one, two) = (first.as_ptr(), second.as_ptr());
    // SAFETY: two slices that are read and one that is written, each with its length, and four numbers of our own that are written.
    unsafe { rindsaddle_join(one, first.len(), two, second.len(), version, out.as_mut_ptr(), out.len(), told.as_mut_ptr()) };
    told
}

pub fn text(block: &[u8], out: &mut [u8; 1024]) -> usize {
    // SAFETY: a slice that is read with its length, and an array of the 1,024 bytes that are asked for.
    unsafe { rindsaddle_text(block.as_ptr(), block.len(), out.as_mut_ptr()) }
}

pub fn run(block: &[u8], [a, b, c]: Channels) -> Told {
    let mut told = [0; 4];
    let (a_count, b_count, c_count) = (a.len(), b.len(), c.len());
    let (a, b, c) = (a.as_mut_ptr(), b.as_mut_ptr(), c.as_mut_ptr());
    // SAFETY: a slice that is read and three that are written, each with its length, and four numbers of our own that are written.
    unsafe { rindsaddle_run(block.as_ptr(), block.len(), a, a_count, b, b_count, c, c_count, told.as_mut_ptr()) };
    told
}

pub fn open(block: &[u8], state: &mut [u64; 2]) -> Told {
    let mut told = [0; 4];
    // SAFETY: a slice that is read with its length, an array of two that is written, and four numbers of our own that are.
    unsafe { rindsaddle_open(block.as_ptr(), block.len(), state.as_mut_ptr(), told.as_mut_ptr()) };
    told
}

pub fn strip(block: &[u8], state: &mut [u64; 2], [a, b, c]: Channels) -> Told {
    let mut told = [0; 4];
    let (a_count, b_count, c_count) = (a.len(), b.len(), c.len());
    let (a, b, c) = (a.as_mut_ptr(), b.as_mut_ptr(), c.as_mut_ptr());
    let state = state.as_mut_ptr();
    // SAFETY: a slice that is read and three that are written, each with its length, an array of two, and four numbers of our own that are written.
    unsafe { rindsaddle_strip(block.as_ptr(), block.len(), state, a, a_count, b, b_count, c, c_count, told.as_mut_ptr()) };
    told
}

pub fn close(block: &[u8], state: &mut [u64; 2]) -> Told {
    let mut told = [0; 4];
    // SAFETY: a slice that is read with its length, an array of two that is written, and four numbers of our own that are.
    unsafe { rindsaddle_close(block.as_ptr(), block.len(), state.as_mut_ptr(), told.as_mut_ptr()) };
    told
}
