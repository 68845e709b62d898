//! YCbCr to RGB over floats. The Rust has T.871 alone and judges firmware 1 to 3; for 4 the same
//! operations with 02's constants stand here.

use crate::edges::{ORDINARY, at_edges};
use crate::firmware::{Judged, UNKNOWN, in_turn, judged};
use crate::record::{Kind, Record};
use crate::rng::Rng;
use given::ycbcr_to_rgb;
use std::io::Write;

/// Cb, Y, Cr, or R, G, B.
pub type Channels = [Vec<f32>; 3];

/// "red 1.5748, blue 1.8556, green from 0.0722 * 1.8556 / 0.7152 and 0.2126 * 1.5748 / 0.7152",
/// "the same order of operations with the new constants" (02, W7).
fn bt709([cb, y, cr]: [f32; 3]) -> [f32; 3] {
    let y = y + 128.0f32 / 255.0;
    let red: f32 = 1.5748;
    let blue: f32 = 1.8556;
    let green_cr = -0.2126f32 * red / 0.7152;
    let green_cb = -0.0722f32 * blue / 0.7152;
    [
        cr.mul_add(red, y),
        cb.mul_add(green_cb, cr.mul_add(green_cr, y)),
        cb.mul_add(blue, y),
    ]
}

/// The number, and the channels as they are left.
pub fn converted(firmware: u32, mut channels: Channels) -> (u32, Channels) {
    let equal = channels
        .iter()
        .all(|other| other.len() == channels[0].len());
    let judged = judged(firmware, equal);
    match judged {
        Judged::T871 => {
            let [cb, y, cr] = &mut channels;
            ycbcr_to_rgb([cb, y, cr]);
        }
        Judged::Bt709 => {
            for i in 0..channels[0].len() {
                let rgb = bt709([channels[0][i], channels[1][i], channels[2][i]]);
                for (channel, sample) in channels.iter_mut().zip(rgb) {
                    channel[i] = sample;
                }
            }
        }
        Judged::Refused(_) => {}
    }
    (judged.number(), channels)
}

/// Three channels of these lengths.
pub fn lent(rng: &mut Rng, lengths: [usize; 3]) -> Channels {
    lengths.map(|length| rng.samples(length))
}

/// Refused ones: a firmware that is not known, or lengths that are unequal, or both.
fn refused(rng: &mut Rng) -> Vec<(u32, Channels)> {
    let lengths = [[0, 0, 0], [3, 3, 3], [2, 3, 3], [3, 4, 3], [3, 3, 0]];
    let mut all = Vec::new();
    for firmware in [1, 2, 3, 4].into_iter().chain(UNKNOWN) {
        for these in lengths {
            all.push((firmware, lent(rng, these)));
        }
    }
    all
}

/// Black with a Cr so small that red is subnormal, and would be another number if it were rounded to 24 digits first.
fn below_normal() -> Vec<(u32, Channels)> {
    let dark = -128.0f32 / 255.0;
    [(1, 750), (4, 1250)]
        .map(|(firmware, cr)| {
            (
                firmware,
                [0.0, dark, f32::from_bits(cr)].map(|sample| vec![sample]),
            )
        })
        .to_vec()
}

/// Samples at the ends of a window, 2^-31 and 2, and next to them, of either sign and in each channel, the luma as it is raised; and those sums
/// below the normal numbers. Behind each stands an ordinary pixel, since a piece is judged as a whole.
fn at_window() -> Vec<(u32, Channels)> {
    let ends = [2.0f32.powi(-31), 2.0].into_iter();
    let near = ends.flat_map(|end| [end.next_down(), end, end.next_up()]);
    let signed: Vec<f32> = near.flat_map(|size| [size, -size]).collect();
    let mut all = below_normal();
    for firmware in [1, 4] {
        for place in 0..3 {
            for &sample in &signed {
                let mut pixel = ORDINARY;
                let offset = if place == 1 { 128.0 / 255.0 } else { 0.0 };
                pixel[place] = sample - offset;
                all.push((firmware, pixel.map(|sample| vec![sample])));
            }
        }
    }
    for (_, channels) in &mut all {
        for (channel, sample) in channels.iter_mut().zip(ORDINARY) {
            channel.push(sample);
        }
    }
    all
}

/// The edges, in each channel and in all three, by each firmware that the Rust judges in turn, then by 4; the refused ones; sums below the
/// normal numbers; and the ends of the window.
fn fixed(rng: &mut Rng) -> Vec<(u32, Channels)> {
    let edges = || at_edges(ORDINARY).map(|pixel| pixel.map(|sample| vec![sample]));
    let of_rust = edges()
        .enumerate()
        .map(|(i, channels)| (1 + i as u32 % 3, channels));
    let of_bt709 = edges().map(|channels| (4, channels));
    of_rust
        .chain(of_bt709)
        .chain(refused(rng))
        .chain(below_normal())
        .chain(at_window())
        .collect()
}

pub fn write(rng: &mut Rng, count: usize, out: &mut impl Write) {
    let mut fixed = fixed(rng).into_iter();
    let (mut by_bt709, mut refused) = (0, 0);
    for i in 0..count {
        let (firmware, channels) = fixed.next().unwrap_or_else(|| {
            let length = rng.length();
            (in_turn(i), lent(rng, [length; 3]))
        });
        let record = Record::new(Kind::Ycbcr)
            .words(&[firmware])
            .words(&channels.each_ref().map(|channel| channel.len() as u32))
            .floats(&channels.concat());
        let (number, left) = converted(firmware, channels);
        by_bt709 += (number == 0 && firmware == 4) as usize;
        refused += (number != 0) as usize;
        record.words(&[number]).floats(&left.concat()).write(out);
    }
    eprintln!("ycbcr: {count} conversions, {by_bt709} by BT.709, {refused} refused");
}

#[cfg(test)]
mod tests {
    use super::bt709;

    /// Green's constants as 02's expressions round: where one chroma is 1 and the raised luma is 0.
    #[test]
    fn constants() {
        let dark = -128.0f32 / 255.0;
        assert_eq!(bt709([1.0, dark, 0.0])[1].to_bits(), 0xbe3f_d1ee);
        assert_eq!(bt709([0.0, dark, 1.0])[1].to_bits(), 0xbeef_adfc);
    }
}
