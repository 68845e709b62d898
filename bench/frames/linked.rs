//! Our C functions, linked in.

use crate::samples::{BIAS, Frame, INTENSITY, Kind, MATRIX, block};
use std::sync::LazyLock;

#[path = "../../rust/src/ffi/raw.rs"]
#[allow(dead_code)]
mod raw;

use raw::*;

static BLOCK: LazyLock<Vec<u8>> = LazyLock::new(block);

pub fn make(kind: Kind, frame: &mut Frame) {
    let n = frame.bytes.len();
    let [a, b, c] = frame.channels.each_mut().map(|v| v.as_mut_ptr());
    let mut told = [0u64; 4];
    // SAFETY: each pointer is to n floats or bytes of its own, the others to as many as the declaration's arrays have.
    let number = unsafe {
        let xyb = || rindsaddle_xyb_to_mixed_lms(BIAS.as_ptr(), INTENSITY, a, n, b, n, c, n);
        let matrix = || rindsaddle_matrix(MATRIX.as_ptr(), a, n, b, n, c, n);
        match kind {
            Kind::Xyb => xyb(),
            Kind::Matrix => matrix(),
            Kind::Both => xyb() | matrix(),
            Kind::Counted => {
                let number = xyb() | matrix();
                std::hint::black_box(rindsaddle_count(3, a, n, b, n, c, n));
                number
            }
            Kind::Block => rindsaddle_run(
                BLOCK.as_ptr(),
                BLOCK.len(),
                a,
                n,
                b,
                n,
                c,
                n,
                told.as_mut_ptr(),
            ),
            Kind::Clip => rindsaddle_clip(3, a, n, b, n, c, n),
            Kind::Screen => rindsaddle_screen_bytes(a, n, frame.bytes.as_mut_ptr(), n),
            Kind::Ycbcr => rindsaddle_ycbcr(3, a, n, b, n, c, n),
        }
    };
    assert_eq!(number, 0, "refused");
}
