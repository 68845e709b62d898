//! YCbCr to RGB over bytes, and back. The Rust has the first over floats alone, so whole numbers judge, after 02.

use crate::firmware::{Judged, UNKNOWN, in_turn, judged};
use crate::record::{Kind, Record};
use crate::rng::Rng;
use std::io::Write;

/// Cb, Y, Cr, or R, G, B.
type Pixel = [u8; 3];

/// "the nearest whole number to that exact fraction, halves upward (below zero too), then held
/// within 0 to 255" (02, W5): the whole number at or below p/q + 1/2.
pub fn byte(p: i64, q: i64) -> u8 {
    (2 * p + q).div_euclid(2 * q).clamp(0, 255) as u8
}

/// "with u = Cb - 128 and v = Cr - 128: red is Y + 1402v/1000, blue Y + 1772u/1000, green
/// (587000Y - 202008u - 419198v)/587000" (02, W5).
fn t871([cb, y, cr]: Pixel) -> Pixel {
    let (u, y, v) = (cb as i64 - 128, y as i64, cr as i64 - 128);
    [
        byte(1000 * y + 1402 * v, 1000),
        byte(587000 * y - 202008 * u - 419198 * v, 587000),
        byte(1000 * y + 1772 * u, 1000),
    ]
}

/// "red 1.5748, blue 1.8556, green from 0.0722 * 1.8556 / 0.7152 and 0.2126 * 1.5748 / 0.7152" (02, W7).
fn bt709([cb, y, cr]: Pixel) -> Pixel {
    let (u, y, v) = (cb as i64 - 128, y as i64, cr as i64 - 128);
    [
        byte(10000 * y + 15748 * v, 10000),
        byte(71520000 * y - 722 * 18556 * u - 2126 * 15748 * v, 71520000),
        byte(10000 * y + 18556 * u, 10000),
    ]
}

/// "luma by the weights (0.299, 0.587, 0.114 [..]), then (B - luma) and (R - luma) divided by
/// 1.772 and 1.402 [..], plus 128, all from the exact luma" (02, W11); luma in thousandths.
fn t871_back([r, g, b]: Pixel) -> Pixel {
    let (r, g, b) = (r as i64, g as i64, b as i64);
    let luma = 299 * r + 587 * g + 114 * b;
    [
        byte(1000 * b - luma + 128 * 1772, 1772),
        byte(luma, 1000),
        byte(1000 * r - luma + 128 * 1402, 1402),
    ]
}

/// "0.2126, 0.7152, 0.0722 for firmware 4", "1.8556 and 1.5748" (02, W11); luma in ten-thousandths.
fn bt709_back([r, g, b]: Pixel) -> Pixel {
    let (r, g, b) = (r as i64, g as i64, b as i64);
    let luma = 2126 * r + 7152 * g + 722 * b;
    [
        byte(10000 * b - luma + 128 * 18556, 18556),
        byte(luma, 10000),
        byte(10000 * r - luma + 128 * 15748, 15748),
    ]
}

/// A conversion by each set of weights, its kind of record, and pixels half way.
pub struct Way {
    kind: Kind,
    name: &'static str,
    t871: fn(Pixel) -> Pixel,
    bt709: fn(Pixel) -> Pixel,
    ties: fn() -> Vec<Pixel>,
}

pub const TO_RGB: Way = Way {
    kind: Kind::Bytes,
    name: "bytes",
    t871,
    bt709,
    ties,
};

const TO_YCBCR: Way = Way {
    kind: Kind::BytesBack,
    name: "bytes-back",
    t871: t871_back,
    bt709: bt709_back,
    ties: ties_back,
};

/// The six lent channels: three in, three out.
pub type Lent = [Vec<u8>; 6];

pub fn lent(rng: &mut Rng, lengths: [usize; 6]) -> Lent {
    lengths.map(|length| (0..length).map(|_| rng.below(256) as u8).collect())
}

/// The three channels of these pixels, and three of any bytes.
fn of_pixels(rng: &mut Rng, pixels: &[Pixel]) -> Lent {
    let mut six = lent(rng, [pixels.len(); 6]);
    for (at, channel) in six.iter_mut().take(3).enumerate() {
        *channel = pixels.iter().map(|pixel| pixel[at]).collect();
    }
    six
}

/// The number, and the three channels out as they are left.
pub fn converted(way: &Way, firmware: u32, [a, b, c, d, e, f]: &Lent) -> (u32, [Vec<u8>; 3]) {
    let equal = [b, c, d, e, f].iter().all(|other| other.len() == a.len());
    let judged = judged(firmware, equal);
    let convert = match judged {
        Judged::T871 => way.t871,
        Judged::Bt709 => way.bt709,
        Judged::Refused(number) => return (number, [d.clone(), e.clone(), f.clone()]),
    };
    let pixels: Vec<Pixel> = (0..a.len()).map(|i| convert([a[i], b[i], c[i]])).collect();
    let channel = |at: usize| pixels.iter().map(|pixel| pixel[at]).collect();
    (0, [channel(0), channel(1), channel(2)])
}

/// Every tie: of blue at Cb 3 and 253, of green at Cb 78 with Cr 178 and the other way round; with each Y.
fn ties() -> Vec<Pixel> {
    let every = |cb, cr| (0..=255).map(move |y| [cb, y, cr]);
    every(3, 128)
        .chain(every(253, 128))
        .chain(every(78, 178))
        .chain(every(178, 78))
        .collect()
}

/// Ties of Cb and of Cr, where two colours are equal and the third lies an odd number away; lumas half way at T.871 and at
/// BT.709; and pure colours.
fn ties_back() -> Vec<Pixel> {
    let cb = (0..64).map(|i| [4 * i, 4 * i, 255 - 4 * i]);
    let cr = (0..64).map(|i| [255 - 4 * i, 4 * i, 4 * i]);
    let pure = (0..8).map(|i| [i & 1, i >> 1 & 1, i >> 2].map(|bit| 255 * bit));
    let half = |weights: [u32; 3]| {
        let all = (0u32..1 << 24).step_by(7);
        let pixels = all.map(|all| [(all >> 16) as u8, (all >> 8) as u8, all as u8]);
        let luma =
            move |pixel: &Pixel| (0..3).map(|at| weights[at] * pixel[at] as u32).sum::<u32>();
        let n: u32 = weights.iter().sum();
        pixels
            .filter(move |pixel| luma(pixel) % n == n / 2)
            .take(128)
    };
    cb.chain(cr)
        .chain(pure)
        .chain(half([299, 587, 114]))
        .chain(half([2126, 7152, 722]))
        .collect()
}

/// Each channel at its ends, at 128 and beside these.
fn edges() -> Vec<Pixel> {
    let ends = [0, 1, 127, 128, 129, 254, 255];
    let each = |a, b| ends.map(move |c| [a, b, c]);
    ends.iter()
        .flat_map(|&a| ends.iter().flat_map(move |&b| each(a, b)))
        .collect()
}

/// Pixels to a record of those that do not depend on the seed.
const ROW: usize = 64;

/// The ties and the edges by each firmware that is known; equal lengths, and each of the six one more or one less than
/// the others, by these in turn; and firmwares that are not, with equal lengths and with others.
fn fixed(way: &Way, rng: &mut Rng) -> Vec<(u32, Lent)> {
    let pixels = [(way.ties)(), edges()].concat();
    let rows = pixels.chunks(ROW).enumerate();
    let mut all = Vec::new();
    for (i, row) in rows {
        all.push((1 + i as u32 % 3, of_pixels(rng, row)));
        all.push((4, of_pixels(rng, row)));
    }
    for length in [0, 1, 7] {
        all.push((1 + length as u32 % 3, lent(rng, [length; 6])));
        for at in 0..6 {
            for other in [length.wrapping_sub(1), length + 1] {
                let mut lengths = [length; 6];
                lengths[at] = other;
                if other != usize::MAX {
                    all.push((1 + at as u32 % 4, lent(rng, lengths)));
                }
            }
        }
    }
    for firmware in UNKNOWN {
        for lengths in [[5; 6], [4, 5, 5, 5, 5, 5], [5, 5, 5, 5, 5, 6]] {
            all.push((firmware, lent(rng, lengths)));
        }
    }
    all
}

/// Mostly equal lengths; in one of eight records one is another, or all are any.
fn random(rng: &mut Rng) -> Lent {
    let length = rng.length();
    let mut lengths = [length; 6];
    match rng.below(16) {
        0 => lengths[rng.below(6) as usize] = rng.length(),
        1 => lengths = [0; 6].map(|_| rng.length()),
        _ => {}
    }
    lent(rng, lengths)
}

/// The six channels, those out as they are left, and the number.
pub fn record(kind: Kind, firmware: u32, six: &Lent, left: &[Vec<u8>; 3], number: u32) -> Record {
    let lengths = six.each_ref().map(|channel| channel.len() as u32);
    let head = Record::new(kind).words(&[firmware]).words(&lengths);
    six.iter()
        .chain(left)
        .fold(head, |record, channel| record.packed(channel))
        .words(&[number])
}

pub fn write(rng: &mut Rng, count: usize, out: &mut impl Write) {
    write_way(&TO_RGB, rng, count, out);
}

pub fn write_back(rng: &mut Rng, count: usize, out: &mut impl Write) {
    write_way(&TO_YCBCR, rng, count, out);
}

fn write_way(way: &Way, rng: &mut Rng, count: usize, out: &mut impl Write) {
    let mut fixed = fixed(way, rng).into_iter();
    let (mut pixels, mut by_bt709, mut refused) = (0, 0, 0);
    for i in 0..count {
        let (firmware, six) = fixed.next().unwrap_or_else(|| (in_turn(i), random(rng)));
        let (number, left) = converted(way, firmware, &six);
        if number == 0 {
            pixels += six[0].len();
            by_bt709 += if firmware == 4 { six[0].len() } else { 0 };
        }
        refused += (number != 0) as usize;
        record(way.kind, firmware, &six, &left, number).write(out);
    }
    let name = way.name;
    eprintln!(
        "{name}: {count} conversions of {pixels} pixels, {by_bt709} of them by BT.709, {refused} refused"
    );
}

/// How far each channel moves from RGB to YCbCr and back, modulo 256.
fn moved(there: fn(Pixel) -> Pixel, back: fn(Pixel) -> Pixel, rgb: Pixel) -> Pixel {
    let now = back(there(rgb));
    [0, 1, 2].map(|at| now[at].wrapping_sub(rgb[at]))
}

/// Of all 2^24 pixels by each set of weights, a line for each channel to RGB, back, and for how far it moved: its digest,
/// and how many are 0 and 255. The program `every_pixel` writes the same of ours.
pub fn every() {
    for (firmware, to_rgb, to_ycbcr) in [
        (
            3,
            t871 as fn(Pixel) -> Pixel,
            t871_back as fn(Pixel) -> Pixel,
        ),
        (4, bt709, bt709_back),
    ] {
        println!("firmware {firmware}");
        every_by(["R", "G", "B"], to_rgb);
        every_by(["Cb", "Y", "Cr"], to_ycbcr);
        every_by(["R moved", "G moved", "B moved"], |rgb| {
            moved(to_ycbcr, to_rgb, rgb)
        });
    }
}

fn every_by(names: [&str; 3], convert: impl Fn(Pixel) -> Pixel) {
    let mut digests = [0u64; 3];
    let mut counts = [[0u64; 256]; 3];
    for all in 0..1 << 24 {
        let out = convert([(all >> 16) as u8, (all >> 8) as u8, all as u8]);
        for at in 0..3 {
            digests[at] = (digests[at] * 257 + out[at] as u64 + 1) % 4294967291;
            counts[at][out[at] as usize] += 1;
        }
    }
    for (at, name) in names.iter().enumerate() {
        println!(
            "{name} {} {} {}",
            digests[at], counts[at][0], counts[at][255]
        );
    }
}

/// Of all 2^24 pixels by each set of weights, how many have a red, a green and a blue, and back a Cb, a luma and a Cr, half
/// way between two whole numbers.
pub fn census() {
    for (name, n, red, blue, over, of_u, of_v) in [
        ("T.871", 1000, 1402, 1772, 587000, 202008, 419198),
        (
            "BT.709",
            10000,
            15748,
            18556,
            71520000,
            722 * 18556,
            2126 * 15748,
        ),
    ] {
        let tied = |p: i64, q: i64| (2 * p).rem_euclid(2 * q) == q;
        let (kr, kb) = (n - red / 2, n - blue / 2);
        let mut ties = [0; 6];
        for all in 0i64..1 << 24 {
            let (first, second, third) = (all >> 16, all >> 8 & 255, all & 255);
            let (u, y, v) = (first - 128, second, third - 128);
            let luma = kr * first + (n - kr - kb) * second + kb * third;
            ties[0] += tied(n * y + red * v, n) as u32;
            ties[1] += tied(over * y - of_u * u - of_v * v, over) as u32;
            ties[2] += tied(n * y + blue * u, n) as u32;
            ties[3] += tied(n * third - luma, blue) as u32;
            ties[4] += tied(luma, n) as u32;
            ties[5] += tied(n * first - luma, red) as u32;
        }
        println!(
            "{name}: {} ties of red, {} of green, {} of blue; {} of Cb, {} of luma, {} of Cr",
            ties[0], ties[1], ties[2], ties[3], ties[4], ties[5]
        );
    }
}

#[cfg(test)]
mod tests {
    use super::{bt709, bt709_back, byte, moved, t871, t871_back};

    /// The one whole number n with 2qn - q <= 2p < 2qn + q, searched for, and held.
    fn searched(p: i64, q: i64) -> u8 {
        let nearest = |n: &i64| 2 * q * n - q <= 2 * p && 2 * p < 2 * q * n + q;
        let found: Vec<i64> = (-600..900).filter(nearest).collect();
        assert_eq!(found.len(), 1);
        found[0].clamp(0, 255) as u8
    }

    #[test]
    fn nearest_halves_upward() {
        for p in -3000..4000 {
            assert_eq!(byte(p, 10), searched(p, 10), "{p}/10");
        }
    }

    #[test]
    fn pixels() {
        assert_eq!(t871([128, 77, 128]), [77, 77, 77]);
        assert_eq!(t871([253, 0, 128])[2], 222);
        assert_eq!(t871([3, 222, 128])[2], 1);
        assert_eq!(t871([78, 100, 178])[1], 82);
        assert_eq!(t871([255, 255, 255]), [255, 121, 255]);
        assert_eq!(t871([0, 0, 0]), [0, 135, 0]);
        assert_eq!(bt709([128, 77, 128]), [77, 77, 77]);
        assert_eq!(bt709([100, 128, 200]), [241, 100, 76]);
    }

    #[test]
    fn back() {
        assert_eq!(t871_back([77, 77, 77]), [128, 77, 128]);
        assert_eq!(t871_back([0, 0, 255]), [255, 29, 107]);
        assert_eq!(t871_back([255, 255, 0])[0], 1);
        assert_eq!(t871_back([0, 12, 4])[1], 8);
        assert_eq!(t871_back([0, 0, 5]), [131, 1, 128]);
        assert_eq!(moved(t871_back, t871, [5, 85, 215]), [255, 1, 255]);
        assert_eq!(bt709_back([77, 77, 77]), [128, 77, 128]);
        assert_eq!(bt709_back([255, 0, 0]), [99, 54, 255]);
        assert_eq!(bt709_back([0, 14, 76])[1], 16);
        assert_eq!(moved(bt709_back, bt709, [55, 15, 5]), [255, 1, 255]);
    }
}
