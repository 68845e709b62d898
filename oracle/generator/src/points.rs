//! White points and primaries: by chance, and as words.

use crate::rng::Rng;
use given::{Customxy, Primaries, WhitePoint};

/// The least and the greatest coordinate, in millionths (01).
pub const LEAST: i32 = -2_097_152;
pub const GREATEST: i32 = 2_097_151;

/// D65 by its coordinates: its floats are those of the named one, and it is another white point.
pub const D65_BY_NUMBER: Customxy = Customxy {
    x: 312_700,
    y: 329_000,
};

/// Chromaticities at which the matrices degenerate: a division by 0, two equal points, a point on a
/// line with others, the ends of the range.
pub const ODD: [Customxy; 10] = [
    Customxy { x: 0, y: 0 },
    Customxy { x: 500_000, y: 0 },
    Customxy { x: 300_000, y: 0 },
    Customxy { x: 0, y: 1_000_000 },
    Customxy { x: 1_000_000, y: 0 },
    Customxy {
        x: 333_333,
        y: 333_333,
    },
    Customxy { x: 1, y: -1 },
    Customxy {
        x: LEAST,
        y: GREATEST,
    },
    Customxy {
        x: GREATEST,
        y: LEAST,
    },
    D65_BY_NUMBER,
];

pub fn white_words(white: WhitePoint) -> Vec<u32> {
    match white {
        WhitePoint::D65 => vec![0],
        WhitePoint::E => vec![1],
        WhitePoint::Dci => vec![2],
        WhitePoint::Custom(xy) => vec![3, xy.x as u32, xy.y as u32],
    }
}

pub fn primaries_words(primaries: Primaries) -> Vec<u32> {
    match primaries {
        Primaries::Srgb => vec![0],
        Primaries::Bt2100 => vec![1],
        Primaries::P3 => vec![2],
        Primaries::Custom { red, green, blue } => {
            let mut words = vec![3];
            words.extend(
                [red, green, blue]
                    .iter()
                    .flat_map(|p| [p.x as u32, p.y as u32]),
            );
            words
        }
    }
}

impl Rng {
    fn coordinate(&mut self) -> i32 {
        match self.below(8) {
            0 => self.between(LEAST, GREATEST),
            1 => self.pick(&[
                LEAST,
                LEAST + 1,
                -1,
                0,
                1,
                1_000_000,
                GREATEST - 1,
                GREATEST,
            ]),
            _ => self.between(0, 1_000_000),
        }
    }

    /// A chromaticity within 01's range, sometimes an odd one.
    pub fn point(&mut self) -> Customxy {
        if self.one_in(4) {
            self.pick(&ODD)
        } else {
            Customxy {
                x: self.coordinate(),
                y: self.coordinate(),
            }
        }
    }

    pub fn white(&mut self) -> WhitePoint {
        match self.below(6) {
            0 | 1 => WhitePoint::D65,
            2 => WhitePoint::E,
            3 => WhitePoint::Dci,
            _ => WhitePoint::Custom(self.point()),
        }
    }

    pub fn primaries(&mut self) -> Primaries {
        match self.below(8) {
            0..3 => Primaries::Srgb,
            3 | 4 => Primaries::Bt2100,
            5 => Primaries::P3,
            _ => {
                let (red, green) = (self.point(), self.point());
                // two equal primaries now and then
                let blue = if self.one_in(6) { green } else { self.point() };
                Primaries::Custom { red, green, blue }
            }
        }
    }
}
