//! The loops of jxl-color 0.11.0, as `bench/run frames` cut them from the given files; of screen bytes, which it lacks, a plain loop of 02's rule (W2).

use crate::samples::{BIAS, Frame, INTENSITY, Kind, MATRIX};
use std::hint::black_box;

mod xyb {
    include!(concat!(env!("CUT"), "/xyb.rs"));

    pub(super) fn generic(xyb: [&mut [f32]; 3], ob: [f32; 3], intensity_target: f32) {
        run_generic(xyb, ob, intensity_target)
    }
}

mod ycbcr {
    include!(concat!(env!("CUT"), "/ycbcr.rs"));

    pub(super) fn generic(cbycr: [&mut [f32]; 3]) {
        run_generic(cbycr)
    }
}

pub mod ciexyz {
    include!(concat!(env!("CUT"), "/matmul3vec.rs"));
}

#[inline(never)]
fn matrix(matrix: &[f32; 9], channels: &mut [&mut [f32]; 3]) {
    let [a, b, c] = channels;
    include!(concat!(env!("CUT"), "/matrix.rs"))
}

#[inline(never)]
fn clip(channels: &mut [&mut [f32]; 3], num_input_channels: usize) {
    include!(concat!(env!("CUT"), "/clip.rs"))
}

/// The product is exact in an f64.
#[inline(never)]
fn screen(samples: &[f32], bytes: &mut [u8]) {
    for (byte, sample) in bytes.iter_mut().zip(samples) {
        *byte = (sample.clamp(0.0, 1.0) as f64 * 255.0).round_ties_even() as u8;
    }
}

#[inline(never)]
fn mixed_lms(dispatched: bool, xyb: [&mut [f32]; 3]) {
    let (bias, intensity) = black_box((BIAS, INTENSITY));
    match dispatched {
        true => xyb::run(xyb, bias, intensity),
        false => xyb::generic(xyb, bias, intensity),
    }
}

/// The numbers of a plan are not known when the crate is built, and so not to these loops either.
pub fn make(kind: Kind, dispatched: bool, frame: &mut Frame) {
    let [a, b, c] = &mut frame.channels;
    let mut three: [&mut [f32]; 3] = [a, b, c];
    match kind {
        Kind::Xyb => mixed_lms(dispatched, three),
        Kind::Matrix => matrix(black_box(&MATRIX), &mut three),
        Kind::Both | Kind::Counted | Kind::Block => {
            mixed_lms(dispatched, three);
            let [a, b, c] = &mut frame.channels;
            matrix(black_box(&MATRIX), &mut [a, b, c]);
        }
        Kind::Clip => clip(&mut three, black_box(3)),
        Kind::Screen => screen(three[0], &mut frame.bytes),
        Kind::Ycbcr if dispatched => ycbcr::ycbcr_to_rgb(three),
        Kind::Ycbcr => ycbcr::generic(three),
    }
}
