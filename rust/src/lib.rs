//! Rindsaddle for Rust: colour for container ports, proved. It turns the stored colours of JPEG XL pictures into linear RGB.
//!
//! This crate calls the library's C functions, each of which carries a contract that a prover has accepted for every input; the proofs end at this
//! border, and behind it stand the types here and the tests. What is refused is an [`Err`] with a [`Refusal`], and changes nothing: no input panics.
//!
//! | to | use |
//! |---|---|
//! | make, read, check, merge, join and run plans | [`Plan`] |
//! | run a picture that comes strip by strip | [`Strips`] |
//! | apply single ops | [`steps`] |
//! | convert YCbCr, and bytes there and back | [`ycbcr_to_rgb`], [`ycbcr_bytes_to_rgb`], [`rgb_bytes_to_ycbcr`] |
//! | convert chroma at half width | [`line_to_rgb`], [`widen`], [`narrow`] |
//! | convert ten-bit codes, and samples for a screen | [`code_levels`], [`level`], [`code`], [`screen_bytes`] |
//! | come from jxl-color | [`compare`] |
//!
//! It needs the archive that `./install target/install` makes at the top of the repository, or, wherever else that was put, `RINDSADDLE_LIB_DIR`. It
//! has no dependency, and is for x86-64 Linux.

#![deny(missing_docs)]
#![deny(unsafe_code)]

pub mod compare;
mod convert;
mod encoding;
#[allow(unsafe_code)]
mod ffi;
mod plan;
mod refusal;
pub mod steps;
mod strips;

pub use convert::*;
pub use encoding::*;
pub use ffi::Channels;
pub use plan::{Plan, Ran};
pub use refusal::Refusal;
pub use strips::Strips;

/// a times b plus c, rounded once.
///
/// ```
/// let near_one = 1.0 + 0.000244140625;
/// assert_eq!(rindsaddle::mul_add(near_one, near_one, -1.00048828125), 2.0f32.powi(-24));
/// ```
pub fn mul_add(a: f32, b: f32, c: f32) -> f32 {
    ffi::mul_add(a, b, c)
}

/// The float nearest the cube root; zeros, infinities and NaN are their own.
pub fn cbrt(x: f32) -> f32 {
    ffi::cbrt(x)
}
