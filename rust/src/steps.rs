//! The steps of a run, one by one, on three equally long channels in place; each is refused by 4. And the count of bad samples.

use crate::ffi::{self, Channels};
use crate::refusal::Refusal;

/// X, Y, B to l, m, s.
pub fn xyb_to_mixed_lms(opsin_bias: &[f32; 3], intensity_target: f32, channels: Channels) -> Result<(), Refusal> {
    Refusal::of(ffi::xyb_to_mixed_lms(opsin_bias, intensity_target, channels), 0)
}

/// The product with a matrix, which comes by rows.
///
/// ```
/// let (mut a, mut b, mut c) = ([1.0], [2.0], [3.0]);
/// rindsaddle::steps::matrix(&[0.0, 1.0, 0.0, 1.0, 0.0, 0.0, 0.0, 0.0, 1.0], [&mut a, &mut b, &mut c])?;
/// assert_eq!((a, b, c), ([2.0], [1.0], [3.0]));
/// # Ok::<(), rindsaddle::Refusal>(())
/// ```
pub fn matrix(matrix: &[f32; 9], channels: Channels) -> Result<(), Refusal> {
    Refusal::of(ffi::matrix(matrix, channels), 0)
}

/// Luma, in the first channel, to X, Y, Z of a white point.
pub fn luma_to_xyz(illuminant: [f32; 2], channels: Channels) -> Result<(), Refusal> {
    Refusal::of(ffi::luma_to_xyz(illuminant, channels), 0)
}

/// The first channel takes the second.
pub fn xyz_to_luma(a: &mut [f32], b: &[f32], c: &[f32]) -> Result<(), Refusal> {
    Refusal::of(ffi::xyz_to_luma(a, b, c), 0)
}

/// Within 0 to 1, in the channels within the width; NaN and minus zero stay.
pub fn clip(width: u8, channels: Channels) -> Result<(), Refusal> {
    Refusal::of(ffi::clip(width, channels), 0)
}

/// The Linear curve, and the Unknown one: only the lengths are compared.
pub fn unchanged(width: u8, channels: [&[f32]; 3]) -> Result<(), Refusal> {
    Refusal::of(ffi::unchanged(width, channels), 0)
}

/// How many samples in the channels within the width are infinite or NaN; lengths may differ.
pub fn count(width: u8, channels: [&[f32]; 3]) -> u64 {
    ffi::count(width, channels)
}
