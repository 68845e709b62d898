//! The given Rust on another board: this program brings `cbrtf`, the C library's, and Rust's own copy is not linked. It runs the picture that
//! `oracle picture-biases` runs.

use oracle::{libm, picture};
use std::sync::LazyLock;

static CBRTF: LazyLock<extern "C" fn(f32) -> f32> = LazyLock::new(libm::cbrtf);

#[unsafe(no_mangle)]
extern "C" fn cbrtf(x: f32) -> f32 {
    CBRTF(x)
}

fn main() {
    picture::biases();
}
