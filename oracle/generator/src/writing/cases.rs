//! The lists that are written: each kind, field, count and version at its edges, and then lists by chance.

use super::{Asked, CurveAndG, FIELDS, Flag, Float, write_into};
use crate::block::cases::{GS, op};
use crate::lists::List;
use crate::ops::Op;
use crate::rng::Rng;

/// Buffers for a block of this length: of that length, one less, one more, none, and with bytes behind.
fn rooms(length: usize) -> [usize; 5] {
    [length, length - 1, length + 1, 0, length + 9]
}

/// A list in buffers of those lengths for its block in a version.
fn in_rooms(list: List, version: u16) -> [Asked; 5] {
    rooms(list.block(version).len()).map(|room| (list.clone(), version, room))
}

/// What the part of version 1 begins with.
pub fn fixed() -> Vec<Asked> {
    let lists = lists().into_iter();
    let mut asked: Vec<_> = lists.flat_map(|list| in_rooms(list, 1)).collect();
    asked.extend(malformed());
    asked.extend(counts(1));
    asked.extend(fields());
    asked.extend(largest(1));
    asked
}

/// What the part of both versions begins with.
pub fn versions() -> Vec<Asked> {
    let lists = lists().into_iter();
    let mut asked: Vec<_> = lists.flat_map(|list| in_rooms(list, 2)).collect();
    asked.extend(counts(2));
    asked.extend(largest(2));
    asked.extend(ends());
    asked.extend(unknown());
    asked.extend(retired());
    asked
}

/// 01's list, no op, each kind alone, all of them, and as many as there is room for.
pub fn lists() -> Vec<List> {
    let xy = vec![1, 0.5f32.to_bits(), 0.25f32.to_bits()];
    let mut lists = vec![
        List::new(1, vec![vec![9], xy, vec![2]]),
        List::new(3, vec![]),
        List::new(1, vec![]),
    ];
    for kind in 0..FIELDS.len() {
        lists.extend([1, 3].map(|start| List::new(start, vec![op(kind)])));
    }
    lists.push(List::new(3, (0..10).map(op).collect()));
    lists.extend([31, 32].map(|n| List::new(3, vec![op(9); n])));
    lists
}

/// A NaN in an op.
fn bad() -> Op {
    vec![1, f32::NAN.to_bits(), 0]
}

/// Start widths that are not 1 or 3 and counts above 32, with room and without; 10 comes before 9.
fn malformed() -> Vec<Asked> {
    let mut lists = Vec::new();
    for op in [op(9), bad()] {
        let list = List::new(3, vec![op]);
        lists.extend([0, 2, 4, 33, 255].map(|start| list.clone().starting(start)));
        let counts = [33, 34, 64, 256, 257, 0x1_0001, 0xffff_ffff];
        lists.extend(counts.map(|count| list.clone().counted(count)));
    }
    let with_rooms = |list: List| [0, 7, 60].map(|room| (list.clone(), 1, room));
    lists.into_iter().flat_map(with_rooms).collect()
}

/// Counts below and above the ops in the slots: what stands past the count is not written, and is not bad.
fn counts(version: u16) -> Vec<Asked> {
    let list = List::new(1, vec![op(0), op(4), bad(), op(6)]);
    (0..=5)
        .flat_map(|count| in_rooms(list.clone().counted(count), version))
        .collect()
}

/// Each float of each kind at its edges, each flag, each curve with its `g`; what is bad with no room too, since 9 comes before 12.
fn fields() -> Vec<Asked> {
    const FLOATS: [f32; 7] = [
        f32::NAN,
        f32::INFINITY,
        f32::NEG_INFINITY,
        -0.0,
        1e-45,
        f32::MAX,
        f32::MIN_POSITIVE,
    ];
    let mut asked = Vec::new();
    let mut add = |kind: usize, at: usize, words: &[u32]| {
        let mut other = op(kind);
        other[at..at + words.len()].copy_from_slice(words);
        let list = List::new(3, vec![op(9), other]);
        let room = list.block(1).len() + 2;
        if write_into(&list, 1, &mut []) == Err(9) {
            asked.push((list.clone(), 1, 0));
        }
        asked.push((list, 1, room));
    };
    for (kind, layout) in FIELDS.iter().enumerate() {
        let mut at = 1;
        for field in *layout {
            match field {
                Float => FLOATS.iter().for_each(|x| add(kind, at, &[x.to_bits()])),
                Flag => [0, 1].iter().for_each(|&flag| add(kind, at, &[flag])),
                CurveAndG => {
                    for curve in 0..9 {
                        let gs = if curve < 2 { &GS[..] } else { &[0] };
                        gs.iter().for_each(|&g| add(kind, at, &[curve, g]));
                    }
                    at += 1;
                }
            }
            at += 1;
        }
    }
    asked
}

/// Thirty-two matrices, the longest block: too long for its bytes to stand in a record, but not for a refusal.
fn largest(version: u16) -> Vec<Asked> {
    let list = List::new(3, vec![op(3); 32]);
    let mut bad = list.clone();
    bad.slots[31][9] = f32::NAN.to_bits();
    let asked = |list: &List| [0, 200].map(|room| (list.clone(), version, room));
    [asked(&list), asked(&bad)].concat()
}

/// End widths, true and false, of lists that pass the check, that fail it, that have a NaN or are malformed besides; in a known version and
/// in none, with room and without: 10 comes before all else.
fn ends() -> Vec<Asked> {
    let lists = [
        List::new(3, vec![op(9)]),
        List::new(1, vec![op(9), op(1), op(2), op(1)]),
        List::new(1, vec![]),
        List::new(3, vec![op(1), op(2)]),
        List::new(1, vec![bad()]),
        List::new(1, vec![]).starting(2),
        List::new(3, vec![]).counted(33),
    ];
    let mut asked = Vec::new();
    for list in lists {
        for end in [0, 1, 2, 3, 4, 255] {
            for version in [1, 2, 3] {
                asked.extend([60, 0].map(|room| (list.clone().ending(end), version, room)));
            }
        }
    }
    asked
}

/// Versions that are not known, with a NaN and without, with room and without: 8 comes before 9 and 12.
fn unknown() -> Vec<Asked> {
    let mut asked = Vec::new();
    for version in [0, 3, 4, 255, 256, 257, 258, 512, 513, 0x8002, 0xffff] {
        for op in [op(9), bad()] {
            let list = List::new(1, vec![op]);
            asked.extend([60, 0].map(|room| (list.clone(), version, room)));
        }
    }
    asked
}

/// The Unknown curve, either way, first, last and past the count, beside a NaN and alone; in a known version and in none, with room and without: 15 comes
/// after 9 and before 12.
fn retired() -> Vec<Asked> {
    let curve = |number, inverse| vec![4, number, 0, inverse, 0, 0, 0, 0, 0];
    let lists = [
        List::new(3, vec![curve(3, 0)]),
        List::new(1, vec![curve(3, 1), op(9)]),
        List::new(3, vec![op(9), curve(4, 1), curve(3, 1)]),
        List::new(3, vec![curve(4, 0), curve(2, 0)]),
        List::new(3, vec![op(9), curve(3, 0)]).counted(1),
        List::new(1, vec![curve(3, 0), bad()]),
        List::new(1, vec![bad(), curve(3, 0)]),
        List::new(3, vec![curve(3, 0)]).starting(2),
        List::new(3, [vec![op(9); 31], vec![curve(3, 0)]].concat()),
    ];
    let mut asked = Vec::new();
    for list in lists {
        for version in [1, 2, 3] {
            asked.extend([100, 0].map(|room| (list.clone(), version, room)));
        }
    }
    asked
}

/// Any list, and a buffer near its length, or any; some with a NaN or a `g` out of range, and some with another start width or count.
pub fn random(rng: &mut Rng) -> Asked {
    let longest = rng.pick(&[2, 4, 8, 32]);
    let mut ops: Vec<Op> = (0..rng.below(longest + 1))
        .map(|_| {
            let kind = rng.below(10) as u32;
            rng.op(kind)
        })
        .collect();
    for op in &mut ops {
        if op[0] == 4 && op[1] < 2 && rng.one_in(10) {
            op[2] = rng.next() as u32;
        }
    }
    let mut list = List::new(rng.pick(&[1, 3]), ops);
    match rng.below(20) {
        0 => list = list.starting(rng.next() as u8),
        1 => list = list.counted(rng.below(40) as usize),
        _ => {}
    }
    let length = list.block(1).len();
    let room = match rng.below(4) {
        0 => rng.below(2 * length as u64) as usize,
        1 => length + rng.below(40) as usize,
        _ => rng.pick(&rooms(length)),
    };
    (list, 1, room)
}

/// The same in any version, mostly 2, and some with an end width that is false.
pub fn random_version(rng: &mut Rng) -> Asked {
    let (mut list, _, mut room) = random(rng);
    if rng.one_in(6) {
        let any = rng.next() as u8;
        list = list.ending(rng.pick(&[0, 1, 2, 3, any]));
    }
    let any = rng.next() as u16;
    let version = rng.pick(&[2, 2, 2, 2, 2, 2, 1, any]);
    if version == 2 && rng.one_in(2) {
        room += 1;
    }
    (list, version, room)
}
