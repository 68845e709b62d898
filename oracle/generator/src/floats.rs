//! Floats by class.

use crate::rng::Rng;

pub const MAX: f32 = f32::MAX;
pub const TINY: f32 = f32::from_bits(1);
pub const LARGEST_SUBNORMAL: f32 = f32::from_bits(0x007fffff);

/// Fourteen values at which float code goes wrong.
pub const SPECIAL: [f32; 14] = [
    0.0,
    -0.0,
    TINY,
    -TINY,
    LARGEST_SUBNORMAL,
    f32::MIN_POSITIVE,
    1.0,
    -1.0,
    1.0 + f32::EPSILON,
    MAX,
    -MAX,
    f32::INFINITY,
    f32::NEG_INFINITY,
    f32::NAN,
];

/// 2 ^ e, for an e from -149 to 127.
pub fn power(e: i32) -> f32 {
    if e < -126 {
        f32::from_bits(1 << (e + 149))
    } else {
        f32::from_bits(((e + 127) as u32) << 23)
    }
}

impl Rng {
    /// Any pattern.
    pub fn any(&mut self) -> f32 {
        f32::from_bits(self.next() as u32)
    }

    /// Any finite float whose exponent lies in a range of -127, which is that of the subnormals, to
    /// 127; of either sign.
    pub fn scaled(&mut self, low: i32, high: i32) -> f32 {
        let exponent = (self.between(low, high) + 127) as u32;
        f32::from_bits(exponent << 23 | (self.next() as u32 & 0x807fffff))
    }

    /// One with few digits, so that sums and products are often exact.
    pub fn short(&mut self) -> f32 {
        self.between(-64, 64) as f32 * power(self.between(-8, 4))
    }

    /// A decimal of four places from 0 to 1, as a chromaticity is written.
    pub fn decimal(&mut self) -> f32 {
        self.between(0, 10000) as f32 / 10000.0
    }

    /// What a colour transform meets: mostly tame, sometimes anything.
    pub fn colour(&mut self) -> f32 {
        match self.below(20) {
            0..8 => self.scaled(-6, 1),
            8..13 => self.decimal(),
            13..16 => self.short(),
            16..18 => self.scaled(-127, 127),
            18 => self.pick(&SPECIAL),
            _ => self.any(),
        }
    }

    /// The same for a row of floats: all tame, or each anything.
    pub fn colours<const N: usize>(&mut self) -> [f32; N] {
        let tame = !self.one_in(3);
        std::array::from_fn(|_| {
            if tame {
                self.scaled(-6, 1)
            } else {
                self.colour()
            }
        })
    }
}
