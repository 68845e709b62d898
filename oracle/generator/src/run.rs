//! Runs of lists that pass the width check and have only carried ops.

use crate::cbrt::exact;
use crate::edges::{ORDINARY, at_edges};
use crate::floats::power;
use crate::lists;
use crate::ops::{Op, list};
use crate::record::{Kind, Record, next};
use crate::rng::Rng;
use given::door::word;
use std::io::Write;

/// The lengths of channels: none, one, powers of two and their neighbours.
const LENGTHS: [usize; 18] = [
    0, 1, 2, 3, 4, 5, 7, 8, 9, 15, 16, 17, 31, 32, 33, 63, 64, 65,
];

#[derive(Debug)]
pub struct Case {
    pub start: usize,
    pub ops: Vec<Op>,
    pub channels: [Vec<f32>; 3],
}

pub fn write(rng: &mut Rng, count: usize, out: &mut impl Write) {
    let mut fixed = fixed().into_iter();
    let mut roots = 0;
    for _ in 0..count {
        let (case, record) = next(&mut fixed, || random(rng), record);
        roots += case.wrong_roots();
        record.write(out);
    }
    eprintln!("run: {count} runs; f32::cbrt as linked is not the nearest for {roots} biases");
}

/// One op on one sample of each channel, with the samples at the edges and then with the op's floats there.
fn fixed() -> Vec<Case> {
    let xyb = [-0.0037930733, -0.003, -0.004, 255.0];
    let luma = [0.3127, 0.329];
    let matrix = [0.5, 0.25, 0.125, -0.75, 1.5, 0.375, 0.1, -0.2, 0.9];
    let ops = [
        (3, op(0, &xyb)),
        (1, op(1, &luma)),
        (3, op(2, &[])),
        (3, op(3, &matrix)),
        (1, op(9, &[])),
        (3, op(9, &[])),
        (1, [&[4, 3, 0, 1][..], &[0; 5]].concat()), // Unknown
        (3, [&[4, 4, 0, 0][..], &[0; 5]].concat()), // Linear
    ];
    let case = |start: usize, op: Op, samples: [f32; 3]| Case {
        start,
        ops: vec![op],
        channels: samples.map(|sample| vec![sample]),
    };
    let samples = ops.iter().flat_map(|(start, op)| {
        at_edges(ORDINARY).map(move |samples| case(*start, op.clone(), samples))
    });
    let xyb = at_edges(xyb).map(|floats| case(3, op(0, &floats), ORDINARY));
    let luma = at_edges(luma).map(|floats| case(1, op(1, &floats), ORDINARY));
    let matrix = at_edges(matrix).map(|floats| case(3, op(3, &floats), ORDINARY));
    let edges = samples.chain(xyb).chain(luma).chain(matrix);
    edges
        .chain(windows())
        .chain(inside())
        .chain(outside())
        .chain(ties())
        .chain(decided())
        .chain(small())
        .collect()
}

/// XYB where l, m and s less the roots, or the biases, lie at the ends of where f32 alone is tried: 1/8 and 4, the biases at -2^-15 and -2^-8; or at 0.
/// Each end by itself, and behind it an ordinary sample.
fn windows() -> Vec<Case> {
    let near = |x: f32| [-1, 0, 1].map(|by| f32::from_bits(x.to_bits().wrapping_add_signed(by)));
    let biases = [power(-15), power(-8)].into_iter().flat_map(near);
    let biases = biases
        .flat_map(|b| [b, -b])
        .chain([0.0, -0.0, -0.0037930733]);
    let mut cases = Vec::new();
    for bias in biases {
        for end in [0.0, power(-3), power(2)] {
            for sample in near(end + exact(bias)) {
                cases.push(alike(bias, &[sample, 0.5 + exact(bias)]));
            }
        }
    }
    cases
}

/// XYB of samples all over that window, where l, m and s are 4 together at most, with biases from one end to the other, and black.
fn inside() -> Vec<Case> {
    let all: Vec<f32> = spread(0.13, 1.33, 300).collect();
    let mut cases = vec![alike(-0.0037930733, &[0.0, 0.5])];
    for bias in [-power(-15), -0.0001, -0.0037930733, -0.0009, -power(-8)] {
        for some in all.chunks(60) {
            let samples = some.iter().map(|g| g + exact(bias));
            cases.push(alike(bias, &samples.collect::<Vec<f32>>()));
        }
    }
    cases
}

/// XYB of samples below that window, negative, infinite and NaN ones among them, each case with an ordinary sample behind them.
fn outside() -> Vec<Case> {
    let bias = -0.0037930733;
    let case = |all: &[f32]| {
        let samples = all.iter().chain([&0.5]).map(|g| g + exact(bias));
        alike(bias, &samples.collect::<Vec<f32>>())
    };
    let small: Vec<f32> = spread(power(-7), power(-3), 60).collect();
    let negative: Vec<f32> = spread(power(-5), 1.0, 60).map(|g| -g).collect();
    [&small[..], &negative, &[f32::INFINITY], &[f32::NAN]]
        .map(case)
        .into()
}

/// So many floats from one to below another, with digits of all kinds.
fn spread(from: f32, to: f32, count: u32) -> impl Iterator<Item = f32> {
    let (from, to) = (from.to_bits(), to.to_bits());
    (0..count).map(move |k| f32::from_bits(from + (to - from) / count * k))
}

/// XYB of one bias, l, m and s being alike.
fn alike(bias: f32, samples: &[f32]) -> Case {
    Case {
        start: 3,
        ops: vec![op(0, &[bias, bias, bias, 255.0])],
        channels: [vec![0.0; samples.len()], samples.to_vec(), samples.to_vec()],
    }
}

/// XYB of numbers whose cubes have 25 digits, the last a one: each is half way between two floats, without a bias and with one of 2^-9, whose root is 1/8.
/// The last sample is an ordinary one.
fn ties() -> Vec<Case> {
    let odd = (257..=321).step_by(2).map(|p| p as f32);
    let case = |place: f32, bias: f32| {
        let tied = odd.clone().map(|p| p * place);
        let samples: Vec<f32> = tied.chain([0.7]).map(|g| g + exact(bias)).collect();
        alike(bias, &samples)
    };
    let bare = [-20, -12, -8, -7, 4].map(|e| case(power(e), 0.0));
    let biased = [(-8, power(-9)), (-8, -power(-9)), (-7, power(-9))];
    let biased = biased.map(|(e, bias)| case(power(e), bias));
    bare.into_iter().chain(biased).collect()
}

/// XYB of such numbers where a bias decides that is too small for f64 beside the cube: 2^-60 beside 1, and 2^-15 beside 2^39. Behind each an ordinary sample stands.
fn decided() -> Vec<Case> {
    [
        (power(-60), 257.0 * power(-8)),
        (power(-15), 257.0 * power(5)),
    ]
    .map(|(bias, g)| alike(bias, &[g + exact(bias), 1.0 + exact(bias)]))
    .into()
}

/// XYB whose cubes are below the normal numbers, without a bias and with the smallest: a cube rounded to 24 digits first is often another float.
fn small() -> Vec<Case> {
    let below: Vec<f32> = (1..=60)
        .map(|k| f32::from_bits(0x2a80_0000 - 9941 * k))
        .collect();
    [0.0, power(-149)].map(|bias| alike(bias, &below)).into()
}

/// An op whose fields are all floats.
fn op(kind: u32, floats: &[f32]) -> Op {
    std::iter::once(kind)
        .chain(floats.iter().map(|&x| word(x)))
        .collect()
}

pub fn random(rng: &mut Rng) -> Case {
    let (start, ops) = carried(rng);
    let length = rng.length();
    Case {
        start,
        ops,
        channels: std::array::from_fn(|_| rng.samples(length)),
    }
}

fn record(case: &Case) -> Record {
    case.answered(case.asked(Kind::Run))
}

impl Case {
    pub fn length(&self) -> usize {
        self.channels[0].len()
    }

    /// How many biases have a root that `f32::cbrt`, as it is linked, misses.
    pub fn wrong_roots(&self) -> usize {
        let biases = self.ops.iter().flat_map(biases);
        biases.filter(|b| !right_root(*b)).count()
    }

    /// The start width, the list and the channels.
    pub fn asked(&self, kind: Kind) -> Record {
        Record::new(kind)
            .words(&[self.start as u32])
            .words(&lists::words(self.start, &self.ops))
            .words(&[self.length() as u32])
            .floats(&self.channels.concat())
    }

    /// The width and the channels that the Rust's run ends with.
    pub fn ended(&self) -> (usize, [Vec<f32>; 3]) {
        let mut channels = self.channels.clone();
        let [a, b, c] = &mut channels;
        let width = list(self.start, &self.ops)
            .run(&mut [a, b, c])
            .expect("a run of carried ops");
        (width, channels)
    }

    /// What the run ends with, after what was asked: the width, how many samples within it are infinite or NaN, and the channels.
    pub fn answered(&self, asked: Record) -> Record {
        let (width, channels) = self.ended();
        asked
            .words(&[width as u32, bad(width, &channels, 0..self.length())])
            .floats(&channels.concat())
    }
}

/// How many samples at these places, in the channels within the width, are infinite or NaN.
pub fn bad(width: usize, channels: &[Vec<f32>; 3], places: std::ops::Range<usize>) -> u32 {
    let within = channels.iter().take(width);
    within
        .flat_map(|channel| &channel[places.clone()])
        .filter(|sample| !sample.is_finite())
        .count() as u32
}

fn carried(rng: &mut Rng) -> (usize, Vec<Op>) {
    let start = rng.pick(&[1, 3]);
    let longest = rng.pick(&[1, 3, 5, 32]);
    let mut width = start;
    let ops = (0..rng.below(longest + 1))
        .map(|_| {
            let (op, next) = rng.carried(width);
            width = next;
            op
        })
        .collect();
    (start, ops)
}

fn biases(op: &Op) -> Vec<f32> {
    if op[0] == 0 {
        op[1..4].iter().map(|&b| f32::from_bits(b)).collect()
    } else {
        vec![]
    }
}

fn right_root(b: f32) -> bool {
    word(b.cbrt()) == word(exact(b))
}

impl Rng {
    /// The length of a channel, mostly small.
    pub fn length(&mut self) -> usize {
        if self.one_in(8) {
            self.pick(&LENGTHS)
        } else {
            self.pick(&LENGTHS[..12])
        }
    }

    /// Samples of a picture, mostly from 0 to 1, or of anything.
    pub fn samples(&mut self, length: usize) -> Vec<f32> {
        let tame = !self.one_in(3);
        let sample = |rng: &mut Rng| {
            if tame {
                rng.decimal() * 1.25 - 0.125
            } else {
                rng.colour()
            }
        };
        (0..length).map(|_| sample(self)).collect()
    }
}
