//! Lists written as plan blocks into buffers. The Rust has none, so a writer judges that is written here, from 01's table, W3, W8 and W10.

pub mod cases;

use crate::block::{self, CurveAndG, FIELDS, Flag, Float};
use crate::lists::List;
use crate::ops::{Op, is_retired};
use crate::record::{Kind, Record};
use crate::rng::Rng;
use std::io::Write;

impl List {
    pub fn block(&self, version: u16) -> Vec<u8> {
        let bytes = block(self.start, self.count, &self.ops());
        if version == 2 {
            second(&bytes, self.end)
        } else {
            bytes
        }
    }
}

/// "Mark `CTP`, version u16 = 1, start width u8, count u8, then ops."
pub fn block(start: u8, count: usize, ops: &[Op]) -> Vec<u8> {
    let mut bytes = vec![b'C', b'T', b'P', 1, 0, start, count as u8];
    bytes.extend(ops.iter().flat_map(op_bytes));
    bytes
}

/// "Plan block version 2 has the end width as one byte after the count."
pub fn second(first: &[u8], end: u8) -> Vec<u8> {
    let (head, ops) = first.split_at(7);
    let mut bytes = [head, &[end], ops].concat();
    bytes[3] = 2;
    bytes
}

/// "A kind byte and its fields in f32 unless said."
fn op_bytes(op: &Op) -> Vec<u8> {
    let mut words = op[1..].iter();
    let mut word = || *words.next().expect("a word of the op");
    let mut bytes = vec![op[0] as u8];
    for field in FIELDS[op[0] as usize] {
        match field {
            Float => bytes.extend(word().to_le_bytes()),
            Flag => bytes.push(word() as u8),
            CurveAndG => {
                bytes.push(word() as u8);
                bytes.extend(word().to_le_bytes());
            }
        }
    }
    bytes
}

/// "In this order 10, 9 for a list the reader would refuse by 9, 12 for a buffer too short", and else the length used; "writing any other
/// version 8, tested after 10"; 15 for the Unknown curve, "between 9 and 12".
pub fn write_into(list: &List, version: u16, buffer: &mut [u8]) -> Result<usize, u32> {
    if list.is_malformed() {
        return Err(10);
    }
    if !matches!(version, 1 | 2) {
        return Err(8);
    }
    let bytes = list.block(version);
    if let Err(9) = block::read(&bytes) {
        return Err(9);
    }
    if list.ops().iter().any(is_retired) {
        return Err(15);
    }
    let front = buffer.get_mut(..bytes.len()).ok_or(12u32)?;
    front.copy_from_slice(&bytes);
    Ok(bytes.len())
}

/// A list, the version asked for, and the length of the buffer.
pub type Asked = (List, u16, usize);

/// Version 1, as 01 has it.
pub fn write(rng: &mut Rng, count: usize, out: &mut impl Write) {
    written("writing", cases::fixed(), cases::random, rng, count, out);
}

/// Both versions, and others.
pub fn write_versions(rng: &mut Rng, count: usize, out: &mut impl Write) {
    let (fixed, random) = (cases::versions(), cases::random_version);
    written("writing-versions", fixed, random, rng, count, out);
}

fn written(
    name: &str,
    fixed: Vec<Asked>,
    random: impl Fn(&mut Rng) -> Asked,
    rng: &mut Rng,
    count: usize,
    out: &mut impl Write,
) {
    let mut fixed = fixed.into_iter();
    let mut refused = [0; 16];
    for _ in 0..count {
        let (number, record) = loop {
            let found = fixed.next();
            let is_fixed = found.is_some();
            let (list, version, room) = found.unwrap_or_else(|| random(rng));
            let before: Vec<u8> = (0..room).map(|_| rng.next() as u8).collect();
            let (number, record) = answered(&list, version, before);
            if record.is_short() {
                break (number, record);
            }
            assert!(!is_fixed, "too long a case: {list:?}");
        };
        refused[number as usize] += 1;
        record.write(out);
    }
    eprintln!(
        "{name}: {count} lists, {} of them refused by 8, {} by 9, {} by 10, {} by 12 and {} by 15",
        refused[8], refused[9], refused[10], refused[12], refused[15]
    );
}

/// The number, and the record: start width, slots, count, version, n, the buffer before; number, length, the buffer after.
fn answered(list: &List, version: u16, before: Vec<u8>) -> (u32, Record) {
    let asked = Record::new(Kind::Writing)
        .words(&list.words())
        .words(&[version as u32, before.len() as u32])
        .packed(&before);
    let mut after = before;
    let (number, length) = match write_into(list, version, &mut after) {
        Ok(length) => (0, length),
        Err(number) => (number, 0),
    };
    (number, asked.words(&[number, length as u32]).packed(&after))
}

#[cfg(test)]
mod tests {
    use super::*;

    /// 01's listed block, from its list; and in version 2, with the end width behind the count.
    #[test]
    fn listed() {
        let mut buffer = [0xa5; 20];
        let list = &cases::fixed()[0].0;
        assert_eq!(write_into(list, 1, &mut buffer), Ok(18));
        assert_eq!(
            (&buffer[..18], &buffer[18..]),
            (&block::cases::LISTED[..], &[0xa5; 2][..])
        );
        assert_eq!(write_into(list, 2, &mut buffer), Ok(19));
        assert_eq!(buffer[..9], *b"CTP\x02\x00\x01\x03\x01\x09");
        assert_eq!(buffer[9..19], block::cases::LISTED[8..]);
    }

    /// What the reader accepts is written as it was, at the block's own version.
    #[test]
    fn rewritten() {
        for bytes in block::cases::fixed()
            .into_iter()
            .chain(block::cases::second())
        {
            if let Ok(read) = block::read(&bytes) {
                let used = bytes.len() - read.rest.len();
                let list = List::new(read.start, read.ops);
                assert_eq!(list.block(read.version), bytes[..used]);
            }
        }
    }
}
