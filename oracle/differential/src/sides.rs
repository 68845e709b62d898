//! Encodings and settings of the given Rust as those of the library.

use given::{ColourSpace as S, Customxy, EnumColourEncoding, Primaries as P, RenderingIntent as I, TransferFunction as T, WhitePoint as W};
use oracle::encodings::Settings;

pub fn side(e: &EnumColourEncoding) -> rindsaddle::EnumColourEncoding {
    rindsaddle::EnumColourEncoding {
        colour_space: space(e.colour_space),
        white_point: white(e.white_point),
        primaries: primaries(e.primaries),
        tf: curve(e.tf),
        rendering_intent: intent(e.rendering_intent),
    }
}

pub fn settings(s: &Settings) -> rindsaddle::Settings {
    rindsaddle::Settings {
        inv_mat: s.opsin.inv_mat,
        opsin_bias: s.opsin.opsin_bias,
        intensity_target: s.tone.intensity_target,
        min_nits: s.tone.min_nits,
        detect_peak: s.detect_peak,
        from_pq: s.from_pq,
    }
}

fn space(space: S) -> rindsaddle::ColourSpace {
    match space {
        S::Rgb => rindsaddle::ColourSpace::Rgb,
        S::Grey => rindsaddle::ColourSpace::Grey,
        S::Xyb => rindsaddle::ColourSpace::Xyb,
        S::Unknown => rindsaddle::ColourSpace::Unknown,
    }
}

fn point(point: Customxy) -> rindsaddle::Customxy {
    rindsaddle::Customxy { x: point.x, y: point.y }
}

fn white(white: W) -> rindsaddle::WhitePoint {
    match white {
        W::D65 => rindsaddle::WhitePoint::D65,
        W::E => rindsaddle::WhitePoint::E,
        W::Dci => rindsaddle::WhitePoint::Dci,
        W::Custom(at) => rindsaddle::WhitePoint::Custom(point(at)),
    }
}

fn primaries(primaries: P) -> rindsaddle::Primaries {
    match primaries {
        P::Srgb => rindsaddle::Primaries::Srgb,
        P::Bt2100 => rindsaddle::Primaries::Bt2100,
        P::P3 => rindsaddle::Primaries::P3,
        P::Custom { red, green, blue } => rindsaddle::Primaries::Custom { red: point(red), green: point(green), blue: point(blue) },
    }
}

fn curve(curve: T) -> rindsaddle::TransferFunction {
    match curve {
        T::Gamma { g, inverted } => rindsaddle::TransferFunction::Gamma { g, inverted },
        T::Bt709 => rindsaddle::TransferFunction::Bt709,
        T::Unknown => rindsaddle::TransferFunction::Unknown,
        T::Linear => rindsaddle::TransferFunction::Linear,
        T::Srgb => rindsaddle::TransferFunction::Srgb,
        T::Pq => rindsaddle::TransferFunction::Pq,
        T::Dci => rindsaddle::TransferFunction::Dci,
        T::Hlg => rindsaddle::TransferFunction::Hlg,
    }
}

fn intent(intent: I) -> rindsaddle::RenderingIntent {
    match intent {
        I::Perceptual => rindsaddle::RenderingIntent::Perceptual,
        I::Relative => rindsaddle::RenderingIntent::Relative,
        I::Saturation => rindsaddle::RenderingIntent::Saturation,
        I::Absolute => rindsaddle::RenderingIntent::Absolute,
    }
}
