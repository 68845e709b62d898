//! Bytes for a screen. The Rust has none, so whole numbers judge, after 02.

use crate::edges::edges;
use crate::record::{Kind, Record};
use crate::rng::Rng;
use std::cmp::Ordering::{Equal, Greater, Less};
use std::io::Write;

/// Samples to a record of those that do not depend on the seed.
const ROW: usize = 51;

/// "the byte is the whole number nearest the exact product of the clipped sample and 255, a tie
/// going to the even number. [..] NaN stays 0." (02, W2)
fn nearest(sample: f32) -> u8 {
    if sample.is_nan() || sample <= 0.0 {
        return 0;
    }
    if sample >= 1.0 {
        return 255;
    }
    let (digits, places) = parts(sample);
    let product = 255 * digits;
    if places > 40 {
        return 0; // the product is below 2^32
    }
    let one = 1 << places;
    let (whole, rest) = (product / one, product % one);
    let whole = match (2 * rest).cmp(&one) {
        Less => whole,
        Equal => whole + whole % 2,
        Greater => whole + 1,
    };
    whole as u8
}

/// A positive float below 1 is its digits, of which there are 24, divided by 2 ^ places.
fn parts(sample: f32) -> (u64, u32) {
    let (field, fraction) = (sample.to_bits() >> 23, sample.to_bits() & 0x7fffff);
    match field {
        0 => (fraction as u64, 149),
        _ => ((fraction | 0x800000) as u64, 150 - field),
    }
}

/// "clip, multiply by 255 in f32, add 0.5 in f32, drop the fraction; NaN gives 0" (01), which W2 replaced.
fn float_sum(sample: f32) -> u8 {
    (sample.clamp(0.0, 1.0) * 255.0 + 0.5) as u8
}

pub fn write(rng: &mut Rng, count: usize, out: &mut impl Write) {
    let fixed = fixed();
    let mut rows = fixed.chunks(ROW);
    let (mut all, mut differ) = (0, 0);
    for _ in 0..count {
        let samples = rows.next().map_or_else(|| random(rng), <[f32]>::to_vec);
        let bytes: Vec<u32> = samples.iter().map(|&x| nearest(x) as u32).collect();
        all += samples.len();
        differ += changed(&samples);
        Record::new(Kind::Screen)
            .words(&[samples.len() as u32])
            .floats(&samples)
            .words(&bytes)
            .write(out);
    }
    eprintln!(
        "screen: {count} conversions of {all} samples; 01's float sum differs in {differ} of them"
    );
}

fn changed(samples: &[f32]) -> usize {
    let differs = |&&x: &&f32| nearest(x) != float_sum(x);
    samples.iter().filter(differs).count()
}

/// The float nearest the point (2k + 1) / 510, whose product with 255 lies half way from k to k + 1.
fn half_way(k: u32) -> f32 {
    (2 * k + 1) as f32 / 510.0
}

/// A float some units in the last place further.
fn moved(x: f32, by: i32) -> f32 {
    f32::from_bits(x.to_bits().wrapping_add_signed(by))
}

/// The float nearest each half-way point, with those below and above it, and the edges.
fn fixed() -> Vec<f32> {
    (0..255)
        .flat_map(|k| [-1, 0, 1].map(|by| moved(half_way(k), by)))
        .chain(edges())
        .collect()
}

fn random(rng: &mut Rng) -> Vec<f32> {
    let sample = |rng: &mut Rng| match rng.below(4) {
        0 => rng.colour(),
        1 => moved(half_way(rng.below(255) as u32), rng.between(-4, 4)),
        2 => rng.between(0, 1 << 24) as f32 / (1 << 24) as f32,
        _ => f32::from_bits(rng.below(0x3f800001) as u32),
    };
    (0..rng.length()).map(|_| sample(rng)).collect()
}

/// Counts the samples from 0 to 1 whose byte is not the one of 01's float sum.
pub fn census() {
    let differing: Vec<f32> = (0..=0x3f800000)
        .map(f32::from_bits)
        .filter(|&x| nearest(x) != float_sum(x))
        .collect();
    println!(
        "all f32 from 0 to 1: 01's float sum differs in {}",
        differing.len()
    );
    for &x in &differing[..differing.len().min(5)] {
        println!(
            "  {:08x} -> {}, nearest {}",
            x.to_bits(),
            float_sum(x),
            nearest(x)
        );
    }
}

#[cfg(test)]
mod tests {
    use super::{fixed, nearest, parts};

    /// Of all bytes the one that lies nearest, and of two as near the even one.
    fn searched(sample: f32) -> u8 {
        let (digits, places) = parts(sample);
        let apart = |byte: u128| (255 * digits as u128).abs_diff(byte << places);
        let byte = (0..=255).min_by_key(|&byte| (apart(byte), byte % 2));
        byte.expect("a byte") as u8
    }

    #[test]
    fn nearest_bytes() {
        let byte = |pattern| nearest(f32::from_bits(pattern));
        assert_eq!(byte(0x3b008080), 0);
        assert_eq!(byte(0x3f010101), 128);
        assert_eq!(byte(0x3f020202), 129);
        assert_eq!(nearest(0.5), 128);
        assert_eq!(nearest(1.0), 255);
        assert_eq!(nearest(f32::NAN), 0);
        let inside = fixed().into_iter().filter(|x| (1e-30..1.0).contains(x));
        inside.for_each(|x| assert_eq!(nearest(x), searched(x), "{x}"));
    }
}
