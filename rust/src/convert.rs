//! YCbCr, bytes and ten-bit codes. The camera's firmware says by which weights: 1 to 3 ITU-T T.871, 4 ITU-R BT.709-6; others are refused by 13,
//! and lengths that do not fit by 4.

use crate::ffi::{self, Channels};
use crate::refusal::Refusal;

/// Cb, Y, Cr to R, G, B over floats, in place.
pub fn ycbcr_to_rgb(firmware: u32, cb_y_cr: Channels) -> Result<(), Refusal> {
    Refusal::of(ffi::ycbcr(firmware, cb_y_cr), 0)
}

/// Cb, Y, Cr to R, G, B over bytes, by whole numbers alone.
///
/// ```
/// let (mut r, mut g, mut b) = ([0], [0], [0]);
/// rindsaddle::ycbcr_bytes_to_rgb(1, [&[3], &[255], &[128]], [&mut r, &mut g, &mut b])?;
/// assert_eq!((r, g, b), ([255], [255], [34]));
/// # Ok::<(), rindsaddle::Refusal>(())
/// ```
pub fn ycbcr_bytes_to_rgb(firmware: u32, cb_y_cr: [&[u8]; 3], rgb: [&mut [u8]; 3]) -> Result<(), Refusal> {
    Refusal::of(ffi::ycbcr_bytes(firmware, cb_y_cr, rgb), 0)
}

/// R, G, B to Cb, Y, Cr over bytes. There and back moves no channel of a pixel by more than 1.
pub fn rgb_bytes_to_ycbcr(firmware: u32, rgb: [&[u8]; 3], cb_y_cr: [&mut [u8]; 3]) -> Result<(), Refusal> {
    Refusal::of(ffi::rgb_bytes(firmware, rgb, cb_y_cr), 0)
}

/// A line of n chroma bytes to one of 2n or 2n - 1.
pub fn widen(line: &[u8], out: &mut [u8]) -> Result<(), Refusal> {
    Refusal::of(ffi::widen(line, out), 0)
}

/// A line of n bytes to one of n / 2, rounded up.
pub fn narrow(line: &[u8], out: &mut [u8]) -> Result<(), Refusal> {
    Refusal::of(ffi::narrow(line, out), 0)
}

/// Y with Cb and Cr at half width to R, G, B as long as Y: what [`widen`] of both and then [`ycbcr_bytes_to_rgb`] give.
pub fn line_to_rgb(firmware: u32, cb_y_cr: [&[u8]; 3], rgb: [&mut [u8]; 3]) -> Result<(), Refusal> {
    Refusal::of(ffi::line_bytes(firmware, cb_y_cr, rgb), 0)
}

/// Samples from 0 to 1 to as many bytes for a screen; NaN gives 0.
pub fn screen_bytes(samples: &[f32], bytes: &mut [u8]) -> Result<(), Refusal> {
    Refusal::of(ffi::screen_bytes(samples, bytes), 0)
}

/// The 16-bit linear level of a ten-bit sRGB code, and 0 of one above 1023.
pub fn level(code: u16) -> u16 {
    ffi::level(code)
}

/// The ten-bit sRGB code whose level is nearest, the lower one on a tie.
pub fn code(level: u16) -> u16 {
    ffi::code(level)
}

/// Ten-bit sRGB codes to as many levels from 0 to 1. Refused by 4, then by 14.
pub fn code_levels(codes: &[u16], levels: &mut [f32]) -> Result<(), Refusal> {
    Refusal::of(ffi::code_levels(codes, levels), 0)
}

/// How many channels an ICC profile has: 1, 3 or 4.
pub fn icc_channels(profile: &[u8]) -> u8 {
    ffi::icc_channels(profile)
}
