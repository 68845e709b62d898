//! `f32::mul_add`: the product and the addend, rounded once.

use crate::floats::{MAX, SPECIAL, TINY, power};
use crate::libm;
use crate::record::{Kind, Record};
use crate::rng::Rng;
use given::door::word;
use std::io::Write;

type Case = [f32; 3];

/// How the cases after the fixed ones are made, in turn.
const CLASSES: [fn(&mut Rng) -> Case; 11] = [
    tail_breaks_tie,
    far_breaks_tie,
    cancels,
    nearly_cancels,
    subnormal,
    subnormal_tie,
    overflows,
    short,
    of_one_size,
    special,
    any,
];

pub fn write(rng: &mut Rng, count: usize, out: &mut impl Write) {
    let fmaf = libm::fmaf();
    let mut fixed = fixed().into_iter();
    let (mut separate, mut library) = (0, 0);
    for turn in 0..count {
        let [a, b, c] = match fixed.next() {
            Some(case) => case,
            None => CLASSES[turn % CLASSES.len()](rng),
        };
        let r = a.mul_add(b, c);
        separate += (word(a * b + c) != word(r)) as usize;
        library += (word(fmaf(a, b, c)) != word(r)) as usize;
        Record::new(Kind::Fused).floats(&[a, b, c, r]).write(out);
    }
    eprintln!(
        "fused: {count} cases; in {separate} rounding twice gives another answer; \
         the C library's fmaf differs in {library}"
    );
}

/// Each triple of special values, and 01's starred case.
fn fixed() -> Vec<Case> {
    let mut cases = Vec::new();
    for a in SPECIAL {
        for b in SPECIAL {
            for c in SPECIAL {
                cases.push([a, b, c]);
            }
        }
    }
    let x = 1.0 + power(-12);
    cases.push([x, x, -(1.0 + power(-11))]);
    cases
}

fn signed(rng: &mut Rng, x: f32) -> f32 {
    if rng.one_in(2) { -x } else { x }
}

/// A float of one binary digit in a range of exponents.
fn one_digit(rng: &mut Rng, low: i32, high: i32) -> f32 {
    let x = power(rng.between(low, high));
    signed(rng, x)
}

/// The product is half a unit of the addend, but for a digit that a product rounded to f32 loses:
/// (1 + d) (1 - d) is 1 - d ^ 2, and (1 + d) (1 - d + d ^ 2) is 1 + d ^ 3.
fn tail_breaks_tie(rng: &mut Rng) -> Case {
    let (d, b) = if rng.one_in(2) {
        let d = power(rng.between(-23, -13));
        (d, 1.0 - d)
    } else {
        let d = power(rng.between(-12, -9));
        (d, 1.0 - d + d * d)
    };
    let place = rng.between(-60, 60);
    [
        (1.0 + d) * power(place),
        signed(rng, b),
        rng.scaled(place + 24, place + 24),
    ]
}

/// The product is the middle of two floats, 25 digits exactly, and the addend, up to 250 places
/// below, decides.
fn far_breaks_tie(rng: &mut Rng) -> Case {
    loop {
        let (p, q) = (rng.below(1 << 13) | 1, rng.below(1 << 13) | 1);
        if (p * q) >> 24 == 1 {
            let place = rng.between(-40, 100);
            let a = p as f32 * power(place);
            let b = signed(rng, q as f32);
            let c = one_digit(rng, (place - 250).max(-149), (place - 1).max(-149));
            return [a, b, c];
        }
    }
}

/// The addend is the rounded product, negated: what is left is what the rounding lost.
fn cancels(rng: &mut Rng) -> Case {
    let (a, b) = (rng.scaled(-80, 60), rng.scaled(-60, 60));
    [a, b, -(a * b)]
}

/// The same, up to four units off, or up to three places.
fn nearly_cancels(rng: &mut Rng) -> Case {
    let (a, b) = (rng.scaled(-40, 40), rng.scaled(-40, 40));
    let c = -(a * b);
    let c = if rng.one_in(3) {
        c * power(rng.between(-3, 3))
    } else {
        f32::from_bits(c.to_bits().wrapping_add_signed(rng.between(-4, 4)))
    };
    [a, b, c]
}

/// The result is at or below the smallest normal numbers.
fn subnormal(rng: &mut Rng) -> Case {
    let place = rng.between(-60, 2);
    let a = rng.scaled(place, place);
    let b = rng.scaled((-160 - place).max(-127), -124 - place);
    let c = if rng.one_in(3) {
        one_digit(rng, -149, -120)
    } else {
        rng.scaled(-127, -124)
    };
    [a, b, c]
}

/// The product is a whole number of halves, or quarters, of the smallest subnormal.
fn subnormal_tie(rng: &mut Rng) -> Case {
    let place = rng.between(-76, -74);
    let a = rng.between(-9, 9) as f32 * power(place);
    let b = rng.between(-9, 9) as f32 * power(-150 - place + rng.between(-1, 0));
    let c = rng.between(-9, 9) as f32 * TINY;
    [a, b, c]
}

/// The result is near the largest float, or its half unit past it, 2 ^ 128 - 2 ^ 103.
fn overflows(rng: &mut Rng) -> Case {
    let place = rng.between(20, 100);
    match rng.below(4) {
        0 => [
            rng.scaled(place, place),
            rng.scaled(126 - place, 128 - place),
            rng.scaled(100, 127),
        ],
        1 => [
            power(place),
            power(128 - place),
            -one_digit(rng, 100, 108).abs(),
        ],
        2 => [power(place), power(103 - place), MAX],
        _ => {
            let d = power(rng.between(-23, -13));
            [
                (1.0 + d) * power(place),
                (1.0 - d) * power(103 - place),
                MAX,
            ]
        }
    }
}

fn short(rng: &mut Rng) -> Case {
    [rng.short(), rng.short(), rng.short()]
}

/// The product and the addend have about the same size.
fn of_one_size(rng: &mut Rng) -> Case {
    let (p, q) = (rng.between(-50, 50), rng.between(-50, 50));
    [
        rng.scaled(p, p),
        rng.scaled(q, q),
        rng.scaled(p + q - 26, p + q + 26),
    ]
}

fn special(rng: &mut Rng) -> Case {
    let mut case = [rng.any(), rng.any(), rng.any()];
    case[rng.below(3) as usize] = rng.pick(&SPECIAL);
    case
}

fn any(rng: &mut Rng) -> Case {
    [rng.any(), rng.any(), rng.any()]
}
