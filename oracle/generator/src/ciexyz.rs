//! The matrix functions of the given `ciexyz.rs`.

use crate::points::{D65_BY_NUMBER, ODD, primaries_words, white_words};
use crate::record::{Kind, Record};
use crate::rng::Rng;
use given::door::{
    adapt_mat, illuminant_to_xyz, matinv, matmul3, matmul3vec, primaries_to_xyz_mat,
    xyz_to_primaries_mat,
};
use given::{Customxy, Primaries, WhitePoint};
use std::io::Write;

const NAMED: [Primaries; 3] = [Primaries::Srgb, Primaries::Bt2100, Primaries::P3];

/// How the records after the fixed ones are made, in turn.
const CALLS: [fn(&mut Rng) -> Record; 10] = [
    |rng| product(rng.colours(), rng.colours()),
    |rng| applied(rng.colours(), rng.colours()),
    |rng| inverse(matrix(rng)),
    |rng| xyz(xy(rng)),
    |rng| adapt_xy(xy(rng), xy(rng)),
    |rng| adapt(white(rng), white(rng)),
    |rng| to_xyz_xy(triangle(rng), xy(rng)),
    |rng| to_xyz(rng.primaries(), white(rng)),
    |rng| from_xyz_xy(triangle(rng), xy(rng)),
    |rng| from_xyz(rng.primaries(), white(rng)),
];

pub fn write(rng: &mut Rng, count: usize, out: &mut impl Write) {
    let mut fixed = fixed().into_iter();
    for turn in 0..count {
        let record = fixed
            .next()
            .unwrap_or_else(|| CALLS[turn % CALLS.len()](rng));
        record.write(out);
    }
    eprintln!("ciexyz: {count} calls");
}

/// Every pair of the named white points and the odd ones, and these with the named primaries.
fn fixed() -> Vec<Record> {
    let mut whites = vec![WhitePoint::D65, WhitePoint::E, WhitePoint::Dci];
    whites.extend(ODD.map(WhitePoint::Custom));
    let mut records = Vec::new();
    for &from in &whites {
        for &to in &whites {
            records.push(adapt(from, to));
        }
    }
    for &white in &whites {
        for primaries in NAMED {
            records.push(to_xyz(primaries, white));
            records.push(from_xyz(primaries, white));
        }
    }
    // the identity, a matrix of rank two, zero
    for m in [
        [1., 0., 0., 0., 1., 0., 0., 0., 1.],
        [1., 2., 3., 4., 5., 6., 7., 8., 9.],
        [0.; 9],
    ] {
        records.push(inverse(m));
    }
    // 01: the exchange of two channels, and then the first one doubled
    let exchange = [0., 1., 0., 1., 0., 0., 0., 0., 1.];
    records.push(product([2., 0., 0., 0., 1., 0., 0., 0., 1.], exchange));
    records.push(product(exchange, [2., 0., 0., 0., 1., 0., 0., 0., 1.]));
    records
}

fn matrix(rng: &mut Rng) -> [f32; 9] {
    let mut m: [f32; 9] = rng.colours();
    if rng.one_in(6) {
        // two equal rows
        m.copy_within(0..3, 6);
    }
    m
}

fn xy(rng: &mut Rng) -> [f32; 2] {
    if rng.one_in(2) {
        [rng.decimal(), rng.decimal()]
    } else {
        [rng.colour(), rng.colour()]
    }
}

fn triangle(rng: &mut Rng) -> [[f32; 2]; 3] {
    let mut corners = [xy(rng), xy(rng), xy(rng)];
    if rng.one_in(8) {
        corners[2] = corners[0];
    }
    corners
}

/// A white point; a coordinate may be any `i32` here, where nothing is refused.
fn white(rng: &mut Rng) -> WhitePoint {
    if rng.one_in(8) {
        let ends = [
            i32::MIN,
            i32::MIN + 1,
            -16_777_217,
            16_777_217,
            i32::MAX - 1,
            i32::MAX,
        ];
        return WhitePoint::Custom(Customxy {
            x: rng.pick(&ends),
            y: rng.next() as i32,
        });
    }
    if rng.one_in(8) {
        WhitePoint::Custom(D65_BY_NUMBER)
    } else {
        rng.white()
    }
}

fn product(a: [f32; 9], b: [f32; 9]) -> Record {
    Record::new(Kind::Matmul3)
        .floats(&a)
        .floats(&b)
        .floats(&matmul3(&a, &b))
}

fn applied(a: [f32; 9], b: [f32; 3]) -> Record {
    Record::new(Kind::Matmul3vec)
        .floats(&a)
        .floats(&b)
        .floats(&matmul3vec(&a, &b))
}

fn inverse(m: [f32; 9]) -> Record {
    Record::new(Kind::Matinv).floats(&m).floats(&matinv(&m))
}

fn xyz(w: [f32; 2]) -> Record {
    Record::new(Kind::IlluminantToXyz)
        .floats(&w)
        .floats(&illuminant_to_xyz(w))
}

fn adapt_xy(from: [f32; 2], to: [f32; 2]) -> Record {
    Record::new(Kind::AdaptMatXy)
        .floats(&from)
        .floats(&to)
        .floats(&adapt_mat(from, to))
}

fn adapt(from: WhitePoint, to: WhitePoint) -> Record {
    Record::new(Kind::AdaptMat)
        .words(&white_words(from))
        .words(&white_words(to))
        .floats(&adapt_mat(from, to))
}

fn to_xyz_xy(corners: [[f32; 2]; 3], w: [f32; 2]) -> Record {
    by_floats(
        Kind::PrimariesToXyzMatXy,
        corners,
        w,
        primaries_to_xyz_mat(corners, w),
    )
}

fn from_xyz_xy(corners: [[f32; 2]; 3], w: [f32; 2]) -> Record {
    by_floats(
        Kind::XyzToPrimariesMatXy,
        corners,
        w,
        xyz_to_primaries_mat(corners, w),
    )
}

fn by_floats(kind: Kind, corners: [[f32; 2]; 3], w: [f32; 2], answer: [f32; 9]) -> Record {
    Record::new(kind)
        .floats(corners.as_flattened())
        .floats(&w)
        .floats(&answer)
}

fn to_xyz(primaries: Primaries, white: WhitePoint) -> Record {
    by_name(
        Kind::PrimariesToXyzMat,
        primaries,
        white,
        primaries_to_xyz_mat(primaries, white),
    )
}

fn from_xyz(primaries: Primaries, white: WhitePoint) -> Record {
    by_name(
        Kind::XyzToPrimariesMat,
        primaries,
        white,
        xyz_to_primaries_mat(primaries, white),
    )
}

fn by_name(kind: Kind, primaries: Primaries, white: WhitePoint, answer: [f32; 9]) -> Record {
    Record::new(kind)
        .words(&primaries_words(primaries))
        .words(&white_words(white))
        .floats(&answer)
}
