//! Plans, as the given `ColorTransform` makes them between two enum encodings; those that 02 (W10) refuses by 15 apart.

use crate::debug;
use crate::encodings::{
    DEFAULT_OPSIN, INTENSITIES, INTENTS, NO_OPSIN, SPACES, Settings, encoding_words,
};
use crate::points::D65_BY_NUMBER;
use crate::record::{Kind, Record};
use crate::rng::Rng;
use given::door::curve;
use given::{
    ColorEncodingWithProfile, ColorTransform, ColourSpace, EnumColourEncoding, Error, NullCms,
    Primaries, RenderingIntent, ToneMapping, TransferFunction, WhitePoint,
};
use std::io::Write;

#[derive(Debug)]
pub struct Case {
    pub from: EnumColourEncoding,
    pub to: EnumColourEncoding,
    pub settings: Settings,
}

pub fn write(rng: &mut Rng, count: usize, out: &mut impl Write) {
    let mut fixed = fixed().into_iter();
    let (mut refused, mut retired, mut empty) = (0, 0, 0);
    for _ in 0..count {
        let case = fixed.next().unwrap_or_else(|| random(rng));
        let answer = answer(&case);
        refused += (answer[0] == 3) as usize;
        retired += (answer[0] == 15) as usize;
        empty += (answer[0] == 0 && answer[2] == 0) as usize;
        record(&case).words(&answer).write(out);
    }
    eprintln!(
        "plan: {count} plans, {refused} of them refused by 3, {retired} by 15 and {empty} empty; \
         each is what its Debug print says"
    );
}

/// "An encoding whose transfer function is Unknown .. Only in an Xyb encoding is the curve not looked at".
fn is_retired(side: &EnumColourEncoding) -> bool {
    side.colour_space != ColourSpace::Xyb && side.tf == TransferFunction::Unknown
}

/// The number, the start width, the number of ops, the end width and the ops.
fn answer(case: &Case) -> Vec<u32> {
    match planned(case) {
        Ok(plan) => {
            let mut answer = vec![0, plan.input_channels() as u32];
            answer.extend(debug::words(&plan));
            answer
        }
        Err(number) => vec![number, 0, 0, 0],
    }
}

/// The Rust's plan, or the number of the refusal. 15 comes before what the Rust is asked, equivalence and 3.
pub fn planned(case: &Case) -> Result<ColorTransform, u32> {
    if is_retired(&case.from) || is_retired(&case.to) {
        return Err(15);
    }
    let side = |e: &EnumColourEncoding| ColorEncodingWithProfile::new(e.clone());
    let s = &case.settings;
    let mut builder = ColorTransform::builder();
    builder.set_detect_peak(s.detect_peak).from_pq(s.from_pq);
    match builder.build(
        &side(&case.from),
        &side(&case.to),
        &s.opsin,
        &s.tone,
        &NullCms,
    ) {
        Ok(plan) => Ok(plan),
        Err(Error::UnsupportedColorEncoding) => Err(3),
        Err(other) => panic!("{other:?}"),
    }
}

fn record(case: &Case) -> Record {
    let s = &case.settings;
    let (matrix, biases) = (s.opsin.inv_mat.as_flattened(), &s.opsin.opsin_bias);
    let has_opsin = matrix.iter().chain(biases).any(|&x| x.to_bits() != 0);
    let record = Record::new(Kind::Plan)
        .words(&encoding_words(&case.from))
        .words(&encoding_words(&case.to))
        .floats(&[s.tone.intensity_target, s.tone.min_nits])
        .words(&[s.detect_peak as u32, s.from_pq as u32, has_opsin as u32]);
    if has_opsin {
        record.floats(matrix).floats(biases)
    } else {
        record
    }
}

pub fn random(rng: &mut Rng) -> Case {
    use ColourSpace::{Grey, Rgb, Unknown, Xyb};
    let from = rng.encoding(&[Rgb, Rgb, Rgb, Rgb, Grey, Grey, Grey, Xyb, Xyb]);
    let mut to = if from.colour_space != Xyb && rng.one_in(3) {
        rng.relative_of(&from)
    } else {
        rng.encoding(&[Rgb, Rgb, Rgb, Rgb, Rgb, Grey, Grey, Grey, Grey])
    };
    let settings = rng.settings(&from);
    if settings.from_pq && rng.one_in(4) {
        to.tf = TransferFunction::Hlg;
    }
    let mut case = Case { from, to, settings };
    match rng.below(16) {
        0 => case.from.colour_space = Unknown,
        1 => case.to.colour_space = rng.pick(&[Xyb, Unknown]),
        _ => {}
    }
    case
}

/// An encoding with D65 and the sRGB primaries.
fn plain(space: ColourSpace, tf: TransferFunction, intent: RenderingIntent) -> EnumColourEncoding {
    EnumColourEncoding {
        colour_space: space,
        white_point: WhitePoint::D65,
        primaries: Primaries::Srgb,
        tf,
        rendering_intent: intent,
    }
}

fn settings(from: ColourSpace, intensity_target: f32, from_pq: bool) -> Settings {
    Settings {
        opsin: if from == ColourSpace::Xyb {
            DEFAULT_OPSIN
        } else {
            NO_OPSIN
        },
        tone: ToneMapping {
            intensity_target,
            min_nits: 0.0,
        },
        detect_peak: true,
        from_pq,
    }
}

/// 01's readings, and then each pair of colour spaces, of curves, each intensity by itself, and the Unknown curve on either side of each pair of colour spaces.
fn fixed() -> Vec<Case> {
    use ColourSpace::{Grey, Rgb, Xyb};
    use RenderingIntent::{Perceptual, Relative};
    use TransferFunction::{Hlg, Linear, Pq, Srgb, Unknown};
    let mut cases = Vec::new();
    let mut add = |from: EnumColourEncoding, to: EnumColourEncoding, intensity, from_pq| {
        let settings = settings(from.colour_space, intensity, from_pq);
        cases.push(Case { from, to, settings });
    };

    add(
        plain(Xyb, Linear, Relative),
        plain(Rgb, Linear, Relative),
        255.0,
        false,
    );
    add(
        plain(Grey, Linear, Perceptual),
        plain(Rgb, Linear, Perceptual),
        255.0,
        false,
    );
    add(
        plain(Grey, Hlg, Relative),
        plain(Rgb, Linear, Relative),
        255.0,
        false,
    );
    let same_floats = EnumColourEncoding {
        white_point: WhitePoint::Custom(D65_BY_NUMBER),
        ..plain(Rgb, Linear, Relative)
    };
    add(plain(Rgb, Linear, Relative), same_floats, 255.0, false);

    for from in SPACES {
        for to in SPACES {
            for intent in INTENTS {
                add(
                    plain(from, Srgb, intent),
                    plain(to, Linear, intent),
                    300.0,
                    false,
                );
            }
        }
    }
    for from in 0..9 {
        for to in 0..9 {
            let (from, to) = (curve(from, 4_545_455), curve(to, 4_545_455));
            add(
                plain(Rgb, from, Relative),
                plain(Rgb, to, Relative),
                1000.0,
                true,
            );
        }
    }
    for intensity in INTENSITIES {
        for space in [Rgb, Grey] {
            for tf in [Srgb, Hlg, Pq] {
                for from_pq in [false, true] {
                    add(
                        plain(Rgb, Pq, Perceptual),
                        plain(space, tf, Perceptual),
                        intensity,
                        from_pq,
                    );
                }
            }
        }
    }
    for from in SPACES {
        for to in SPACES {
            for (one, other) in [(Unknown, Unknown), (Unknown, Linear), (Srgb, Unknown)] {
                let (from, to) = (plain(from, one, Relative), plain(to, other, Relative));
                add(from, to, 255.0, false);
            }
        }
    }
    cases
}
