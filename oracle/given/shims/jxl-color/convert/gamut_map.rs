//! Stands in for `convert/gamut_map.rs`, which is not given. No plan calls it, and no run that is
//! carried.
//!
//! A child of `convert` sees what is private there, so this is the door to the ops of a plan: a
//! list is made of a record's words, merged by the given `optimize`, and read as words again.

use super::{ColorTransform, ColorTransformOp, HdrParams};
use crate::cms::door::{curve, curve_words, word};

pub fn gamut_map(
    _r: &mut [f32],
    _g: &mut [f32],
    _b: &mut [f32],
    _luminances: [f32; 3],
    _saturation_factor: f32,
) {
    crate::cms::door::called("gamut_map");
}

impl ColorTransform {
    /// The list of `count` ops that `words` begins with.
    pub fn from_words(begin_channels: usize, count: usize, words: &[u32]) -> Self {
        let mut words = words.iter().copied();
        let ops = (0..count).map(|_| op(&mut words)).collect();
        Self {
            begin_channels,
            ops,
        }
    }

    /// The number of ops, and then each op.
    pub fn words(&self) -> Vec<u32> {
        let mut out = vec![self.ops.len() as u32];
        for op in &self.ops {
            put(op, &mut out);
        }
        out
    }

    pub fn merged(mut self) -> Self {
        self.optimize();
        self
    }
}

/// An op as 01's plan block has it: a kind and its fields.
fn put(op: &ColorTransformOp, out: &mut Vec<u32>) {
    let floats = |out: &mut Vec<u32>, xs: &[f32]| out.extend(xs.iter().map(|&x| word(x)));
    match op {
        ColorTransformOp::XybToMixedLms {
            opsin_bias,
            intensity_target,
        } => {
            out.push(0);
            floats(out, opsin_bias);
            floats(out, &[*intensity_target]);
        }
        ColorTransformOp::LumaToXyz { illuminant } => {
            out.push(1);
            floats(out, illuminant);
        }
        ColorTransformOp::XyzToLuma => out.push(2),
        ColorTransformOp::Matrix(matrix) => {
            out.push(3);
            floats(out, matrix);
        }
        ColorTransformOp::TransferFunction {
            tf,
            hdr_params,
            inverse,
        } => {
            out.push(4);
            out.extend(curve_words(*tf));
            out.push(*inverse as u32);
            floats(out, &params(hdr_params));
        }
        ColorTransformOp::HlgInverseOotf(hdr_params) => {
            out.push(5);
            floats(out, &params(hdr_params));
        }
        ColorTransformOp::ToneMapRec2408 {
            hdr_params,
            target_display_luminance,
            detect_peak,
        }
        | ColorTransformOp::ToneMapLumaRec2408 {
            hdr_params,
            target_display_luminance,
            detect_peak,
        } => {
            let luma = matches!(op, ColorTransformOp::ToneMapLumaRec2408 { .. });
            out.push(6 + luma as u32);
            floats(out, &params(hdr_params));
            floats(out, &[*target_display_luminance]);
            out.push(*detect_peak as u32);
        }
        ColorTransformOp::GamutMap {
            luminances,
            saturation_factor,
        } => {
            out.push(8);
            floats(out, luminances);
            floats(out, &[*saturation_factor]);
        }
        ColorTransformOp::Clip => out.push(9),
        ColorTransformOp::IccToIcc(_) => unreachable!("no side is an ICC profile"),
    }
}

fn params(p: &HdrParams) -> [f32; 5] {
    let [r, g, b] = p.luminances;
    [r, g, b, p.intensity_target, p.min_nits]
}

fn op(words: &mut impl Iterator<Item = u32>) -> ColorTransformOp {
    match next(words) {
        0 => ColorTransformOp::XybToMixedLms {
            opsin_bias: floats(words),
            intensity_target: float(words),
        },
        1 => ColorTransformOp::LumaToXyz {
            illuminant: floats(words),
        },
        2 => ColorTransformOp::XyzToLuma,
        3 => ColorTransformOp::Matrix(floats(words)),
        4 => ColorTransformOp::TransferFunction {
            tf: curve(next(words), next(words)),
            inverse: flag(words),
            hdr_params: hdr_params(words),
        },
        5 => ColorTransformOp::HlgInverseOotf(hdr_params(words)),
        6 => ColorTransformOp::ToneMapRec2408 {
            hdr_params: hdr_params(words),
            target_display_luminance: float(words),
            detect_peak: flag(words),
        },
        7 => ColorTransformOp::ToneMapLumaRec2408 {
            hdr_params: hdr_params(words),
            target_display_luminance: float(words),
            detect_peak: flag(words),
        },
        8 => ColorTransformOp::GamutMap {
            luminances: floats(words),
            saturation_factor: float(words),
        },
        9 => ColorTransformOp::Clip,
        kind => panic!("{kind} is no op's kind"),
    }
}

fn hdr_params(words: &mut impl Iterator<Item = u32>) -> HdrParams {
    HdrParams {
        luminances: floats(words),
        intensity_target: float(words),
        min_nits: float(words),
    }
}

fn next(words: &mut impl Iterator<Item = u32>) -> u32 {
    words.next().expect("a word of the op")
}

fn flag(words: &mut impl Iterator<Item = u32>) -> bool {
    next(words) == 1
}

fn float(words: &mut impl Iterator<Item = u32>) -> f32 {
    f32::from_bits(next(words))
}

fn floats<const N: usize>(words: &mut impl Iterator<Item = u32>) -> [f32; N] {
    std::array::from_fn(|_| float(words))
}
