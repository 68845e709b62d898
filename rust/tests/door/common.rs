//! What the tests share: plan blocks, channels by chance, and their bits.

use rindsaddle::{ColourSpace, EnumColourEncoding, Plan, RenderingIntent::Relative, TransferFunction};

/// 01's 18 bytes: Clip, LumaToXyz at 0.5, 0.25, XyzToLuma.
pub const EXAMPLE: &[u8] = b"CTP\x01\x00\x01\x03\x09\x01\x00\x00\x00\x3f\x00\x00\x80\x3e\x02";

/// Clip and XyzToLuma at width 1, where the second finds another width than it needs.
pub const MISFIT: &[u8] = b"CTP\x01\x00\x01\x02\x09\x02";

/// The Unknown curve at width 1: its curve, g, inverse, and five floats.
pub fn retired() -> Vec<u8> {
    let mut block = b"CTP\x01\x00\x01\x01\x04\x03".to_vec();
    block.resize(34, 0);
    block
}

pub fn read(block: &[u8]) -> Plan {
    Plan::from_block(block).expect("a good block").0
}

/// D65, the primaries of sRGB, intent Relative.
pub fn side(colour_space: ColourSpace, tf: TransferFunction) -> EnumColourEncoding {
    EnumColourEncoding { colour_space, tf, ..EnumColourEncoding::srgb_linear(Relative) }
}

pub type Picture = [Vec<f32>; 3];

/// Samples of any bits, by splitmix64.
pub fn picture(seed: u64, length: usize) -> Picture {
    let mut state = seed;
    let mut next = || {
        state = state.wrapping_add(0x9e3779b97f4a7c15);
        let z = (state ^ (state >> 30)).wrapping_mul(0xbf58476d1ce4e5b9);
        f32::from_bits((z ^ (z >> 27)) as u32)
    };
    [0, 1, 2].map(|_| (0..length).map(|_| next()).collect())
}

/// The bits, so that NaNs and zeros are told apart.
pub fn bits(picture: &Picture) -> [Vec<u32>; 3] {
    [0, 1, 2].map(|i| picture[i].iter().map(|sample| sample.to_bits()).collect())
}

/// The channels as they are lent.
pub fn lend(picture: &mut Picture) -> [&mut [f32]; 3] {
    let [a, b, c] = picture;
    [a, b, c]
}
