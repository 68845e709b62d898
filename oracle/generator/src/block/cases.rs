//! The blocks of a list: each byte and each field at its edges, and then blocks by chance.

use super::{CurveAndG, FIELDS, Flag, Float, read, size};
use crate::encodings::GREATEST_G;
use crate::lists::{List, end_width};
use crate::ops::Op;
use crate::rng::Rng;
use crate::writing::{block, second as with_end};

/// 01's block of 18 bytes.
pub const LISTED: [u8; 18] = [
    0x43, 0x54, 0x50, 0x01, 0x00, 0x01, 0x03, 0x09, 0x01, 0x00, 0x00, 0x00, 0x3f, 0x00, 0x00, 0x80,
    0x3e, 0x02,
];

/// What bytes are changed to; a flipped bit comes besides.
const CHANGED: [u8; 8] = [0, 1, 2, 9, 10, 0x7f, 0x80, 0xff];

/// NaNs (quiet and signalling, of either sign, of one bit and of all), infinities, zeros, subnormals and the largest.
const FLOATS: [u32; 14] = [
    0x7fc00000, 0x7f800001, 0xffc00000, 0xff800001, 0x7fffffff, 0xffffffff, 0x7f800000, 0xff800000,
    0, 0x80000000, 1, 0x807fffff, 0x7f7fffff, 0x00800000,
];

pub const GS: [u32; 7] = [
    0,
    1,
    0x100,
    GREATEST_G,
    GREATEST_G + 1,
    0x80000000,
    u32::MAX,
];

const HEAD: usize = 7;

/// A good op whose floats all differ, so that no two can change places unseen.
pub fn op(kind: usize) -> Op {
    let mut op = vec![kind as u32];
    for (field, i) in FIELDS[kind].iter().zip(0..) {
        match field {
            Float => op.push(0x3f810203 + 0x00111317 * i),
            Flag => op.push(1),
            CurveAndG => op.extend([1, 0x00bcdef1]),
        }
    }
    op
}

/// The blocks that the part of version 1 begins with.
pub fn fixed() -> Vec<Vec<u8>> {
    let mut blocks = vec![LISTED.to_vec(), [&LISTED[..], &[0, 9, 1]].concat(), vec![]];
    for kind in 0..FIELDS.len() {
        for start in [1, 3] {
            blocks.push(block(start, 1, &[op(kind)]));
        }
    }
    blocks.extend(heads());
    blocks.extend(counts());
    blocks.extend(orders());
    blocks.extend(fields());
    blocks.extend(damaged(block(3, 10, &(0..10).map(op).collect::<Vec<_>>())));
    blocks
}

/// The blocks that the part of version 2 begins with.
pub fn second() -> Vec<Vec<u8>> {
    let listed = with_end(&LISTED, 1);
    let mut blocks = vec![listed.clone(), [&listed[..], &[0, 9, 1]].concat()];
    blocks.extend(ends());
    blocks.extend(second_heads(&listed));
    let whole_heads = |bytes: &Vec<u8>| bytes.len() >= HEAD;
    let first = counts().into_iter().chain(orders());
    blocks.extend(first.filter(whole_heads).map(made_second));
    blocks.extend(second_orders());
    blocks.extend(damaged(listed));
    blocks.extend(damaged(List::new(1, vec![op(1), op(2), op(7)]).block(2)));
    blocks
}

/// A block of version 1 as one of version 2, with the end width that is true where its list can be read, and else 3.
fn made_second(bytes: Vec<u8>) -> Vec<u8> {
    let end = read(&bytes).map_or(3, |block| end_width(block.start, &block.ops));
    with_end(&bytes, end)
}

/// Lists that go from width to width, that fail at the first op, at the last and between, with each end width.
fn ends() -> Vec<Vec<u8>> {
    let mut lists = vec![vec![]];
    lists.extend((0..10).map(|kind| vec![op(kind)]));
    lists.extend([
        vec![op(1), op(2)],
        vec![op(2), op(1)],
        vec![op(2), op(7), op(4), op(9), op(1), op(3)],
        vec![op(3), op(1), op(9), op(2)],
        vec![op(1), op(1), op(2), op(9)],
        vec![op(9), op(9), op(7), op(8)],
        vec![vec![4, 8, 0, 1, 0, 0, 0, 0, 0]],
        (0..32).map(|i| op(1 + i % 2)).collect(),
        (0..31).map(|i| op(2 - i % 2)).collect(),
    ]);
    let mut blocks = Vec::new();
    for ops in lists {
        for start in [1, 3] {
            let list = List::new(start, ops.clone());
            blocks.extend([0, 1, 2, 3, 255].map(|end| list.clone().ending(end).block(2)));
        }
    }
    blocks
}

/// Marks, versions, start widths, and the shortest blocks with and without the byte of the end width.
fn second_heads(listed: &[u8]) -> Vec<Vec<u8>> {
    let with = |at: usize, bytes: &[u8]| {
        let mut block = listed.to_vec();
        block[at..at + bytes.len()].copy_from_slice(bytes);
        block
    };
    let versions = [
        0, 1, 3, 4, 0x0102, 0x0200, 0x0201, 0x0202, 0x8002, 0xffff_u16,
    ];
    let mut blocks = vec![with(0, b"ctp"), with(0, b"CT\0")];
    blocks.extend(versions.map(|version| with(3, &version.to_le_bytes())));
    blocks.extend([0, 2, 3, 4, 255].map(|start| with(5, &[start])));
    for (start, count) in [(1, 0), (3, 0), (3, 1), (0, 0), (2, 0), (1, 33), (2, 33)] {
        for version in [1, 2, 3] {
            let head = [b'C', b'T', b'P', version, 0, start, count];
            blocks.push(head.to_vec());
            blocks.extend([0, 1, 3].map(|end| [&head[..], &[end]].concat()));
        }
    }
    blocks
}

/// A false end width and something else wrong: what is wrong with an op, or with the head, comes first.
fn second_orders() -> Vec<Vec<u8>> {
    let (clip, nan) = (op(9), vec![1, 0x7fc00000, 0]);
    let mut blocks = Vec::new();
    for end in [0, 1, 2, 3, 255] {
        blocks.extend([
            with_end(&block(1, 2, std::slice::from_ref(&clip)), end),
            with_end(&block(1, 2, &[clip.clone(), nan.clone()]), end),
            with_end(&block(1, 3, &[clip.clone(), nan.clone()]), end),
            with_end(&[block(1, 1, &[]), vec![10]].concat(), end),
            with_end(&block(1, 1, &[op(1)])[..15], end),
            with_end(&block(2, 1, std::slice::from_ref(&clip)), end),
            with_end(&block(1, 33, &vec![clip.clone(); 33]), end),
            // the count is less than the ops that follow, of which the end width is that of all or of none
            with_end(&block(1, 1, &[clip.clone(), op(1)]), end),
            with_end(&block(1, 0, &[op(1)]), end),
        ]);
    }
    blocks
}

/// Marks, versions and start widths.
fn heads() -> Vec<Vec<u8>> {
    let with = |at: usize, bytes: &[u8]| {
        let mut block = LISTED.to_vec();
        block[at..at + bytes.len()].copy_from_slice(bytes);
        block
    };
    let mut blocks: Vec<_> = [b"ctp", b"PTC", b"CPT", b"CT\0", b"\0TP", b"C\0P"]
        .map(|mark| with(0, mark))
        .into();
    let versions: [u16; 6] = [0, 2, 0x0100, 0x0101, 0x8001, 0xffff];
    blocks.extend(versions.map(|version| with(3, &version.to_le_bytes())));
    blocks.extend([0, 1, 2, 3, 4, 33, 255].map(|start| with(5, &[start])));
    blocks
}

/// Counts of nothing, of fewer and more than there are, at the end of the range and beyond.
fn counts() -> Vec<Vec<u8>> {
    let mut blocks = Vec::new();
    for kind in [9, 2, 8, 1] {
        for (count, present) in [(0, 0), (0, 1), (1, 2), (2, 1), (31, 32), (32, 31), (32, 32)] {
            blocks.push(block(1, count, &vec![op(kind); present]));
        }
        for count in [33, 34, 64, 128, 255] {
            blocks.push(block(3, count, &vec![op(kind); 34]));
        }
    }
    // the largest block is too long for its list to stand in a record, but not for a refusal
    let largest = block(3, 32, &vec![op(3); 32]);
    let mut bad = largest.clone();
    bad[largest.len() - 4..].fill(0xff);
    blocks.extend([largest[..largest.len() - 1].to_vec(), bad]);
    blocks
}

/// Two things wrong at once: the first test that finds one decides.
fn orders() -> Vec<Vec<u8>> {
    let clip = op(9);
    let nan = vec![1, 0x7fc00000, 0];
    let mut blocks = vec![
        b"CTX\x01\x00\x01".to_vec(),
        b"CTX\x01\x00\x02\x21".to_vec(),
        b"CTP\x02\x00\x02\x01\xff".to_vec(),
        block(2, 1, &[]),
        block(0, 2, &[nan.clone(), clip.clone()]),
        block(1, 33, &[nan.clone(), clip.clone()]),
        block(1, 33, &[]),
        block(1, 2, &[clip.clone(), nan.clone()]),
        block(1, 2, &[nan.clone(), clip.clone()]),
        block(1, 3, &[nan.clone(), clip.clone()]),
        block(1, 1, &[clip.clone(), nan.clone()]),
    ];
    for kind in [10, 11, 0x7f, 0xff] {
        // an unknown kind at the end of the bytes, before others, and after the last op
        for (count, after) in [(1, 0), (1, 40), (2, 0), (2, 40)] {
            let ops = vec![clip.clone(); count - 1];
            blocks.push([block(1, count, &ops), vec![kind], vec![0xff; after]].concat());
        }
        blocks.push([block(1, 1, std::slice::from_ref(&clip)), vec![kind]].concat());
    }
    // a bad field in a payload that is short, and then in one that is not
    for short in [1, 0] {
        let bytes = block(1, 1, std::slice::from_ref(&nan));
        blocks.push(bytes[..bytes.len() - short].to_vec());
    }
    blocks
}

/// Each float of each kind, each flag and each curve with `g`, with good fields and a byte after them.
fn fields() -> Vec<Vec<u8>> {
    let mut blocks = Vec::new();
    for (kind, layout) in FIELDS.iter().enumerate() {
        for (place, field) in layout.iter().enumerate() {
            let at = HEAD + 1 + size(&layout[..place]);
            let mut add = |bytes: &[u8]| {
                let mut block = block(3, 1, &[op(kind)]);
                block[at..at + bytes.len()].copy_from_slice(bytes);
                block.push(0xff);
                blocks.push(block);
            };
            match field {
                Float => FLOATS.iter().for_each(|x| add(&x.to_le_bytes())),
                Flag => [0, 1, 2, 3, 0x80, 255]
                    .iter()
                    .for_each(|&flag| add(&[flag])),
                CurveAndG => {
                    for curve in [0, 1, 2, 3, 4, 5, 6, 7, 8, 9, 10, 255] {
                        for g in GS {
                            add(&[&[curve][..], &g.to_le_bytes()].concat());
                        }
                    }
                }
            }
        }
    }
    blocks
}

/// Each byte of a block changed, and each length that it is cut to.
fn damaged(block: Vec<u8>) -> Vec<Vec<u8>> {
    let mut blocks: Vec<_> = (0..=block.len()).map(|n| block[..n].to_vec()).collect();
    for (at, &old) in block.iter().enumerate() {
        let flipped = old ^ 1 << (at % 8);
        for new in CHANGED.into_iter().chain([flipped]) {
            let mut other = block.clone();
            other[at] = new;
            if new != old {
                blocks.push(other);
            }
        }
    }
    blocks
}

/// A good block with any bytes after it, and mostly damaged.
pub fn random(rng: &mut Rng) -> Vec<u8> {
    let list = any_list(rng);
    damaged_somewhere(rng, list.block(1), HEAD)
}

/// The same in version 2, some with an end width that is false.
pub fn random_second(rng: &mut Rng) -> Vec<u8> {
    let mut list = any_list(rng);
    if rng.one_in(6) {
        let any = rng.next() as u8;
        list = list.ending(rng.pick(&[0, 1, 2, 3, any]));
    }
    damaged_somewhere(rng, list.block(2), HEAD + 1)
}

fn any_list(rng: &mut Rng) -> List {
    let longest = rng.pick(&[2, 4, 8, 32]);
    let ops: Vec<Op> = (0..rng.below(longest + 1))
        .map(|_| {
            let kind = rng.below(10) as u32;
            rng.op(kind)
        })
        .collect();
    List::new(rng.pick(&[1, 3]), ops)
}

/// The block, which has so many bytes before its ops, with bytes after it, and mostly with a byte changed, put in or taken out, or cut.
fn damaged_somewhere(rng: &mut Rng, mut bytes: Vec<u8>, head: usize) -> Vec<u8> {
    bytes.extend((0..rng.pick(&[0, 0, 1, 7, 40])).map(|_| rng.next() as u8));
    let at = rng.below(bytes.len() as u64) as usize;
    match rng.below(8) {
        0 => bytes.truncate(at),
        1 => bytes[at] = rng.next() as u8,
        2 => bytes[at] ^= 1 << rng.below(8),
        3 => bytes[HEAD - 1] = rng.below(34) as u8,
        4 => bytes.insert(at.max(head), rng.next() as u8),
        5 if at >= head => drop(bytes.remove(at)),
        _ => {}
    }
    bytes
}
