//! Plan blocks, good and damaged. The Rust has none, so a reader judges that is written here, from
//! 01's table and W8.

pub mod cases;

use crate::encodings::GREATEST_G;
use crate::lists;
use crate::ops::{Op, is_retired};
use crate::record::{Kind, Record, next};
use crate::rng::Rng;
use std::io::Write;

/// A field of an op, as the table has it; a curve and its `g` are bad or good together.
#[derive(Clone, Copy)]
pub enum Field {
    Float,
    Flag,
    CurveAndG,
}

pub use Field::{CurveAndG, Flag, Float};

/// The fields of the kinds 0 to 9. Params are five floats.
pub const FIELDS: [&[Field]; 10] = [
    &[Float; 4],
    &[Float; 2],
    &[],
    &[Float; 9],
    &[CurveAndG, Flag, Float, Float, Float, Float, Float],
    &[Float; 5],
    &[Float, Float, Float, Float, Float, Float, Flag],
    &[Float, Float, Float, Float, Float, Float, Flag],
    &[Float; 4],
    &[],
];

/// What a good block says, and what follows it.
pub struct Block<'a> {
    pub version: u16,
    pub start: u8,
    pub ops: Vec<Op>,
    pub rest: &'a [u8],
}

/// "Order: under 7 bytes (7), 8, 10, then op by op." In version 2 "7 for a missing end width byte, after 8 and before 10, and 9 for a
/// false one, after the ops".
pub fn read(bytes: &[u8]) -> Result<Block<'_>, u32> {
    let (head, mut rest) = bytes.split_first_chunk::<7>().ok_or(7u32)?;
    let [mark @ .., low, high, start, count] = head;
    let version = u16::from_le_bytes([*low, *high]);
    if mark != b"CTP" || !matches!(version, 1 | 2) {
        return Err(8);
    }
    let mut told = None;
    if version == 2 {
        let (end, after) = rest.split_first().ok_or(7u32)?;
        told = Some(*end);
        rest = after;
    }
    if !lists::well_formed(*start, *count as usize) {
        return Err(10);
    }
    let mut ops = Vec::new();
    for _ in 0..*count {
        let (op, after) = read_op(rest)?;
        ops.push(op);
        rest = after;
    }
    if told.is_some_and(|end| end != lists::end_width(*start, &ops)) {
        return Err(9);
    }
    Ok(Block {
        version,
        start: *start,
        ops,
        rest,
    })
}

/// "Kind byte missing (7), kind (9), payload short (7), fields (9)."
fn read_op(bytes: &[u8]) -> Result<(Op, &[u8]), u32> {
    let (kind, after) = bytes.split_first().ok_or(7u32)?;
    let fields = FIELDS.get(*kind as usize).ok_or(9u32)?;
    let (mut payload, rest) = after.split_at_checked(size(fields)).ok_or(7u32)?;
    let mut op = vec![*kind as u32];
    for field in *fields {
        let (this, others) = payload.split_at(field.size());
        op.extend(field.read(this).ok_or(9u32)?);
        payload = others;
    }
    Ok((op, rest))
}

fn size(fields: &[Field]) -> usize {
    fields.iter().map(|f| f.size()).sum()
}

impl Field {
    fn size(self) -> usize {
        match self {
            Float => 4,
            Flag => 1,
            CurveAndG => 5,
        }
    }

    /// Its words, or nothing where it is bad.
    fn read(self, bytes: &[u8]) -> Option<Vec<u32>> {
        let little = |b: &[u8]| b.iter().rev().fold(0, |n, &b| n << 8 | b as u32);
        let words = match self {
            Float | Flag => vec![little(bytes)],
            CurveAndG => vec![bytes[0] as u32, little(&bytes[1..])],
        };
        let good = match self {
            Float => !f32::from_bits(words[0]).is_nan(),
            Flag => words[0] <= 1,
            CurveAndG => match words[0] {
                0 | 1 => words[1] <= GREATEST_G,
                2..=8 => words[1] == 0,
                _ => false,
            },
        };
        good.then_some(words)
    }
}

/// Blocks of version 1, as 01 has them.
pub fn write(rng: &mut Rng, count: usize, out: &mut impl Write) {
    written("block", cases::fixed(), cases::random, rng, count, out);
}

/// Blocks of version 2.
pub fn write_second(rng: &mut Rng, count: usize, out: &mut impl Write) {
    let (fixed, random) = (cases::second(), cases::random_second);
    written("block-second", fixed, random, rng, count, out);
}

fn written(
    name: &str,
    fixed: Vec<Vec<u8>>,
    random: impl Fn(&mut Rng) -> Vec<u8>,
    rng: &mut Rng,
    count: usize,
    out: &mut impl Write,
) {
    let mut fixed = fixed.into_iter();
    let mut refused = [0; 11];
    for _ in 0..count {
        let (bytes, record) = next(&mut fixed, || random(rng), |bytes| record(bytes));
        refused[read(&bytes).err().unwrap_or(0) as usize] += 1;
        record.write(out);
    }
    eprintln!(
        "{name}: {count} blocks, {} of them refused by 7, {} by 8, {} by 9 and {} by 10",
        refused[7], refused[8], refused[9], refused[10]
    );
}

/// The number of writing its list again: "W3's rewriting holds from now on for blocks without curve 3".
fn written_again(block: &Block) -> u32 {
    if block.ops.iter().any(is_retired) {
        15
    } else {
        0
    }
}

/// n and the bytes; number, bytes of rest, version, the number of writing the list again, start width and list. The list of a refused block is
/// empty with width 0, and is refused by 10.
fn record(bytes: &[u8]) -> Record {
    let record = Record::new(Kind::Block)
        .words(&[bytes.len() as u32])
        .packed(bytes);
    match read(bytes) {
        Ok(block) => record
            .words(&[0, block.rest.len() as u32, block.version as u32])
            .words(&[written_again(&block), block.start as u32])
            .words(&lists::words(block.start as usize, &block.ops)),
        Err(number) => record.words(&[number, bytes.len() as u32, 0, 10, 0, 0, 0]),
    }
}

#[cfg(test)]
mod tests {
    use super::*;

    /// 01's column of payload bytes.
    #[test]
    fn payloads() {
        let sizes = FIELDS.map(size);
        assert_eq!(sizes, [16, 8, 0, 36, 26, 20, 25, 25, 16, 0]);
    }

    /// 01's listed block: Clip, LumaToXyz at (0.5, 0.25), XyzToLuma.
    #[test]
    fn listed() {
        let block = read(&cases::LISTED).unwrap();
        let xy = vec![1, 0.5f32.to_bits(), 0.25f32.to_bits()];
        assert_eq!((block.version, block.start, block.rest), (1, 1, &[][..]));
        assert_eq!(block.ops, [vec![9], xy, vec![2]]);
    }
}
