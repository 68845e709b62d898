//! The samples: colours of a picture, and any bits.

/// What is made of a frame.
#[derive(Clone, Copy)]
pub enum Kind {
    Xyb,
    Matrix,
    Both,
    Clip,
    Screen,
    Ycbcr,
    Counted,
    Block,
}

/// Of a JPEG XL picture without settings of its own: the biases, and the inverse opsin matrix at intensity 255.
pub const BIAS: [f32; 3] = [-0.003_793_073_3; 3];
pub const INTENSITY: f32 = 255.0;
pub const MATRIX: [f32; 9] = [
    11.031_567,
    -9.866_944,
    -0.164_623,
    -3.254_147_4,
    4.418_770_4,
    -0.164_623,
    -3.658_851_3,
    2.712_923,
    1.945_928_2,
];

/// The way there, to make XYB of colours.
const OPSIN: [[f32; 3]; 3] = [
    [0.3, 0.622, 0.078],
    [0.23, 0.692, 0.078],
    [0.243_422_69, 0.204_767_44, 0.551_809_87],
];

/// The plan block of XybToMixedLms and Matrix, in version 1.
pub fn block() -> Vec<u8> {
    let mut bytes = b"CTP\x01\x00\x03\x02".to_vec();
    let mut op = |kind: u8, floats: &[f32]| {
        bytes.push(kind);
        floats.iter().for_each(|v| bytes.extend(v.to_le_bytes()));
    };
    op(0, &[BIAS[0], BIAS[1], BIAS[2], INTENSITY]);
    op(3, &MATRIX);
    bytes
}

#[derive(Clone)]
pub struct Frame {
    pub channels: [Vec<f32>; 3],
    /// Screen bytes of the first channel; else what it held.
    pub bytes: Vec<u8>,
}

impl Frame {
    fn of(channels: [Vec<f32>; 3]) -> Frame {
        let bytes = vec![0; channels[0].len()];
        Frame { channels, bytes }
    }

    /// Without taking memory anew, so that it stays warm.
    pub fn clone_from(&mut self, from: &Frame) {
        for (to, from) in self.channels.iter_mut().zip(&from.channels) {
            to.copy_from_slice(from);
        }
        self.bytes.copy_from_slice(&from.bytes);
    }

    /// Two strips.
    pub fn halves(&self) -> (Frame, Frame) {
        let middle = self.bytes.len() / 2;
        let part = |range: std::ops::Range<usize>| {
            Frame::of(self.channels.clone().map(|c| c[range.clone()].to_vec()))
        };
        (part(0..middle), part(middle..self.bytes.len()))
    }

    /// All bits, and every NaN as one.
    pub fn words(&self) -> Vec<u32> {
        let word = |x: &f32| if x.is_nan() { 0x7fc0_0000 } else { x.to_bits() };
        let bytes = self.bytes.iter().map(|&b| b as u32);
        self.channels
            .iter()
            .flatten()
            .map(word)
            .chain(bytes)
            .collect()
    }
}

/// xorshift64*, so that every run has the same samples.
struct Chance(u64);

impl Chance {
    fn bits(&mut self) -> u32 {
        self.0 ^= self.0 >> 12;
        self.0 ^= self.0 << 25;
        self.0 ^= self.0 >> 27;
        (self.0.wrapping_mul(0x2545_f491_4f6c_dd1d) >> 32) as u32
    }

    fn unit(&mut self) -> f32 {
        (self.bits() >> 8) as f32 / 16_777_216.0
    }
}

fn xyb([r, g, b]: [f32; 3]) -> [f32; 3] {
    let root = |row: [f32; 3], bias: f32| {
        (row[0] * r + row[1] * g + row[2] * b - bias).cbrt() + bias.cbrt()
    };
    let [l, m, s] = [0, 1, 2].map(|i| root(OPSIN[i], BIAS[i]));
    [(l - m) / 2.0, (l + m) / 2.0, s]
}

/// Colours from black to white, each near the one before it, as what the work takes: XYB, linear RGB or Cb, Y, Cr.
pub fn picture(kind: Kind, samples: usize) -> Frame {
    let mut chance = Chance(0x9e37_79b9_7f4a_7c15);
    let mut colour = [0.5f32; 3];
    let mut channels = [(); 3].map(|_| Vec::with_capacity(samples));
    for _ in 0..samples {
        let step = colour.map(|v| v + (chance.unit() - 0.5) / 8.0);
        colour = step.map(|v| {
            if (0.0..=1.0).contains(&v) {
                v
            } else {
                1.0 - v.clamp(0.0, 1.0)
            }
        });
        let [r, g, b] = colour;
        let row = match kind {
            Kind::Xyb | Kind::Both | Kind::Counted | Kind::Block => xyb(colour),
            Kind::Matrix => [r / 8.0, g / 8.0, b / 8.0],
            Kind::Clip | Kind::Screen => colour.map(|v| v * 1.25 - 0.125),
            Kind::Ycbcr => [(b - g) / 2.0, g - 0.5, (r - g) / 2.0],
        };
        for (channel, v) in channels.iter_mut().zip(row) {
            channel.push(v);
        }
    }
    Frame::of(channels)
}

/// Any patterns: NaNs, infinities, subnormals and all.
pub fn any_bits(samples: usize) -> Frame {
    let mut chance = Chance(0x2545_f491_4f6c_dd1d);
    Frame::of([(); 3].map(|_| {
        (0..samples)
            .map(|_| f32::from_bits(chance.bits()))
            .collect()
    }))
}
