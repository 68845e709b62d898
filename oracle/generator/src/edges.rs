//! Floats at the edges of their range, of zero and of one: as single samples and as fields of ops.

use crate::floats::SPECIAL;

/// Besides the special values, the next below 1 and the scale of intensities.
const MORE: [f32; 2] = [1.0 - f32::EPSILON / 2.0, 255.0];

/// Samples of an ordinary pixel, one to a channel.
pub const ORDINARY: [f32; 3] = [0.25, 0.625, 0.40625];

pub fn edges() -> impl Iterator<Item = f32> {
    SPECIAL.into_iter().chain(MORE)
}

/// Each edge in each place of a row while the others stay, and then in every place at once.
pub fn at_edges<const N: usize>(row: [f32; N]) -> impl Iterator<Item = [f32; N]> {
    edges().flat_map(move |edge| {
        let alone = move |place| {
            let mut other = row;
            other[place] = edge;
            other
        };
        (0..N).map(alone).chain([[edge; N]])
    })
}
