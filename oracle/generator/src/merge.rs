//! Lists of ops, merged by the given `optimize`.

use crate::debug;
use crate::lists;
use crate::ops::{Op, list};
use crate::record::{Kind, Record, next};
use crate::rng::Rng;
use std::io::Write;

pub fn write(rng: &mut Rng, count: usize, out: &mut impl Write) {
    let mut fixed = fixed(rng).into_iter();
    for _ in 0..count {
        let (_, record) = next(
            &mut fixed,
            || random(rng),
            |(start, ops)| record(*start, ops),
        );
        record.write(out);
    }
    eprintln!("merge: {count} lists");
}

fn record(start: usize, ops: &[Op]) -> Record {
    Record::new(Kind::Merge)
        .words(&[start as u32])
        .words(&lists::words(start, ops))
        .words(&debug::words(&list(start, ops).merged()))
}

/// No op, one of each kind, runs of each length up to 32, and matrices alone between others.
fn fixed(rng: &mut Rng) -> Vec<(usize, Vec<Op>)> {
    let mut lists = vec![(3, vec![])];
    lists.extend((0..10).map(|kind| (1, vec![rng.op(kind)])));
    lists.extend((1..=32).map(|n| (3, (0..n).map(|_| rng.op(3)).collect())));
    lists.push((3, (0..32).map(|_| rng.op(9)).collect()));
    lists.push((
        3,
        (0..32)
            .map(|i| rng.op(if i % 2 == 0 { 3 } else { 9 }))
            .collect(),
    ));
    lists.push((
        3,
        (0..32)
            .map(|i| rng.op(if i % 2 == 0 { 2 } else { 3 }))
            .collect(),
    ));
    // 01: the exchange of two channels, and then the first one doubled
    let matrix = |m: [f32; 9]| std::iter::once(3).chain(m.map(f32::to_bits)).collect();
    let exchange = matrix([0., 1., 0., 1., 0., 0., 0., 0., 1.]);
    lists.push((
        3,
        vec![exchange, matrix([2., 0., 0., 0., 1., 0., 0., 0., 1.])],
    ));
    lists
}

fn random(rng: &mut Rng) -> (usize, Vec<Op>) {
    let longest = rng.pick(&[4, 6, 8, 32]);
    let length = rng.below(longest + 1);
    let one_in = rng.pick(&[2, 3, 5]);
    let ops = (0..length)
        .map(|_| {
            let kind = if rng.one_in(one_in) {
                rng.below(10) as u32
            } else {
                3
            };
            rng.op(kind)
        })
        .collect();
    (rng.pick(&[1, 3]), ops)
}
