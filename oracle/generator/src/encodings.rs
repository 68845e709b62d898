//! Encodings and settings: by chance, and as words.

use crate::points::{primaries_words, white_words};
use crate::rng::Rng;
use given::door::{curve, curve_words};
use given::{
    ColourSpace, EnumColourEncoding, OpsinInverseMatrix, RenderingIntent, ToneMapping,
    TransferFunction,
};

pub const SPACES: [ColourSpace; 4] = [
    ColourSpace::Rgb,
    ColourSpace::Grey,
    ColourSpace::Xyb,
    ColourSpace::Unknown,
];

pub const INTENTS: [RenderingIntent; 4] = [
    RenderingIntent::Perceptual,
    RenderingIntent::Relative,
    RenderingIntent::Saturation,
    RenderingIntent::Absolute,
];

/// The ends of the tests on the intensity, with their neighbours, and what is no intensity.
pub const INTENSITIES: [f32; 17] = [
    255.0,
    f32::from_bits(0x437f0001), // the next above 255
    f32::from_bits(0x437effff),
    999.0,
    f32::from_bits(0x4479bfff), // the next below 999
    f32::from_bits(0x4479c001),
    1000.0,
    1001.0,
    f32::from_bits(0x447a4001), // the next above 1001
    f32::from_bits(0x447a3fff),
    300.0,
    10000.0,
    0.0,
    -255.0,
    f32::INFINITY,
    f32::NEG_INFINITY,
    f32::NAN,
];

/// The greatest `g` (01).
pub const GREATEST_G: u32 = 16_777_215;

/// The settings of a plan.
#[derive(Debug)]
pub struct Settings {
    pub opsin: OpsinInverseMatrix,
    pub tone: ToneMapping,
    pub detect_peak: bool,
    pub from_pq: bool,
}

pub const NO_OPSIN: OpsinInverseMatrix = OpsinInverseMatrix {
    inv_mat: [[0.0; 3]; 3],
    opsin_bias: [0.0; 3],
};

/// JPEG XL's default inverse opsin matrix and biases.
pub const DEFAULT_OPSIN: OpsinInverseMatrix = OpsinInverseMatrix {
    inv_mat: [
        [11.031567, -9.866944, -0.164623],
        [-3.2541473, 4.4187703, -0.164623],
        [-3.6588513, 2.712923, 1.9459282],
    ],
    opsin_bias: [-0.0037930733; 3],
};

/// Colour space, white point, primaries, curve and `g`, intent.
pub fn encoding_words(e: &EnumColourEncoding) -> Vec<u32> {
    let mut words = vec![SPACES.iter().position(|&s| s == e.colour_space).unwrap() as u32];
    words.extend(white_words(e.white_point));
    words.extend(primaries_words(e.primaries));
    words.extend(curve_words(e.tf));
    words.push(
        INTENTS
            .iter()
            .position(|&i| i == e.rendering_intent)
            .unwrap() as u32,
    );
    words
}

impl Rng {
    pub fn curve(&mut self) -> TransferFunction {
        let random = self.below(GREATEST_G as u64 + 1) as u32;
        let g = self.pick(&[0, 1, 4_545_455, 10_000_000, GREATEST_G, random]);
        curve(self.below(9) as u32, g)
    }

    pub fn encoding(&mut self, spaces: &[ColourSpace]) -> EnumColourEncoding {
        EnumColourEncoding {
            colour_space: self.pick(spaces),
            white_point: self.white(),
            primaries: self.primaries(),
            tf: self.curve(),
            rendering_intent: self.pick(&INTENTS),
        }
    }

    /// The same encoding, or one that differs in a single part.
    pub fn relative_of(&mut self, e: &EnumColourEncoding) -> EnumColourEncoding {
        let mut other = e.clone();
        match self.below(6) {
            0 => {}
            1 => other.colour_space = self.pick(&SPACES),
            2 => other.white_point = self.white(),
            3 => other.primaries = self.primaries(),
            4 => other.tf = self.curve(),
            _ => other.rendering_intent = self.pick(&INTENTS),
        }
        other
    }

    fn opsin(&mut self) -> OpsinInverseMatrix {
        if self.one_in(2) {
            return DEFAULT_OPSIN;
        }
        OpsinInverseMatrix {
            inv_mat: [self.colours(), self.colours(), self.colours()],
            opsin_bias: self.colours(),
        }
    }

    /// The opsin matrix counts for an Xyb source alone; another has it now and then, to no effect.
    pub fn settings(&mut self, from: &EnumColourEncoding) -> Settings {
        let wanted = from.colour_space == ColourSpace::Xyb || self.one_in(8);
        let random = self.colour() * 1000.0;
        Settings {
            opsin: if wanted { self.opsin() } else { NO_OPSIN },
            tone: ToneMapping {
                intensity_target: if self.one_in(6) {
                    random
                } else {
                    self.pick(&INTENSITIES)
                },
                min_nits: self.pick(&[0.0, 0.0001, 1.0, f32::NAN]),
            },
            detect_peak: self.one_in(2),
            from_pq: self.one_in(2),
        }
    }
}
