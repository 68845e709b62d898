//! The way in for the generator: the matrix functions, which the given `lib.rs` keeps private, and
//! what a record's words say of floats and curves. (The way to the ops of a plan is
//! `convert/gamut_map.rs`.)

use crate::TransferFunction::{self, *};
use std::cell::RefCell;

pub use crate::ciexyz::{
    adapt_mat, illuminant_to_xyz, matinv, matmul3, matmul3vec, primaries_to_xyz_mat,
    xyz_to_primaries_mat,
};

/// The bits of a float; every NaN is the same one.
pub fn word(x: f32) -> u32 {
    if x.is_nan() { 0x7fc00000 } else { x.to_bits() }
}

/// The transfer function with this number among 01's curves; `g` counts for Gamma alone.
pub fn curve(number: u32, g: u32) -> TransferFunction {
    match number {
        0 => Gamma { g, inverted: false },
        1 => Gamma { g, inverted: true },
        2 => Bt709,
        3 => Unknown,
        4 => Linear,
        5 => Srgb,
        6 => Pq,
        7 => Dci,
        8 => Hlg,
        _ => panic!("{number} is no curve's number"),
    }
}

/// The same back: the curve's number and `g`, which is 0 where the curve has none.
pub fn curve_words(tf: TransferFunction) -> [u32; 2] {
    match tf {
        Gamma { g, inverted } => [inverted as u32, g],
        Bt709 => [2, 0],
        Unknown => [3, 0],
        Linear => [4, 0],
        Srgb => [5, 0],
        Pq => [6, 0],
        Dci => [7, 0],
        Hlg => [8, 0],
    }
}

thread_local! {
    static NOTES: RefCell<Option<Vec<&'static str>>> = const { RefCell::new(None) };
}

/// What a function that is not in the given text does here: it is noted where notes are taken, and panics elsewhere.
pub fn called(name: &'static str) {
    NOTES.with_borrow_mut(|notes| match notes {
        Some(notes) => notes.push(name),
        None => unimplemented!("{name} is not in the given text"),
    });
}

/// What f answers, and which functions that are not in the given text it called; they changed nothing.
pub fn noted<T>(f: impl FnOnce() -> T) -> (T, Vec<&'static str>) {
    NOTES.set(Some(Vec::new()));
    let answer = f();
    (answer, NOTES.take().unwrap_or_default())
}
