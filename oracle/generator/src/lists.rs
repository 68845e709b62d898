//! Lists as a caller hands them over, and the width that a list ends at, worked out from 01's table of widths.

use crate::ops::Op;

/// A start width, the ops in its first slots, Clip being in the others, a count, and an end width that need not be true.
#[derive(Clone, Debug)]
pub struct List {
    pub start: u8,
    pub slots: Vec<Op>,
    pub count: usize,
    pub end: u8,
}

impl List {
    /// These ops, and the end width that is true of them.
    pub fn new(start: u8, ops: Vec<Op>) -> Self {
        let count = ops.len();
        Self {
            start,
            slots: ops,
            count,
            end: 0,
        }
        .made_true()
    }

    /// With another count, and the end width that is then true.
    pub fn counted(self, count: usize) -> Self {
        Self { count, ..self }.made_true()
    }

    /// With another start width, and the end width that is then true.
    pub fn starting(self, start: u8) -> Self {
        Self { start, ..self }.made_true()
    }

    /// With this end width, true or not.
    pub fn ending(self, end: u8) -> Self {
        Self { end, ..self }
    }

    fn made_true(self) -> Self {
        let end = self.true_end();
        self.ending(end)
    }

    fn true_end(&self) -> u8 {
        if well_formed(self.start, self.count) {
            end_width(self.start, &self.ops())
        } else {
            0
        }
    }

    /// The ops below the count.
    pub fn ops(&self) -> Vec<Op> {
        let clips = std::iter::repeat(vec![9]);
        let slots = self.slots.iter().cloned().chain(clips);
        slots.take(self.count).collect()
    }

    /// Refusal 10: "start width not 1 or 3, or count above 32", "also for a false end width in a handed list".
    pub fn is_malformed(&self) -> bool {
        !well_formed(self.start, self.count) || self.ends_falsely()
    }

    pub fn ends_falsely(&self) -> bool {
        self.end != self.true_end()
    }

    /// The start width, the list of what stands in the slots, and the count.
    pub fn words(&self) -> Vec<u32> {
        let mut words = vec![self.start as u32, self.slots.len() as u32, self.end as u32];
        words.extend(self.slots.concat());
        words.push(self.count as u32);
        words
    }
}

/// A list whose end width is true: the number of its ops, its end width, and each op.
pub fn words(start: usize, ops: &[Op]) -> Vec<u32> {
    let mut words = vec![ops.len() as u32, end_width(start as u8, ops) as u32];
    words.extend(ops.concat());
    words
}

pub fn well_formed(start: u8, count: usize) -> bool {
    matches!(start, 1 | 3) && count <= 32
}

/// "Worked out from its start width, count and ops alone, 0 where document 01's 10 or 5 refuses these."
pub fn end_width(start: u8, ops: &[Op]) -> u8 {
    if well_formed(start, ops.len()) {
        checked(start, ops).unwrap_or(0)
    } else {
        0
    }
}

/// The width after the last op, or the position of the first that needs another.
pub fn checked(start: u8, ops: &[Op]) -> Result<u8, usize> {
    let mut width = start;
    for (position, op) in ops.iter().enumerate() {
        width = after(op, width).ok_or(position)?;
    }
    Ok(width)
}

/// The width after an op; nothing where it needs another.
fn after(op: &Op, width: u8) -> Option<u8> {
    const HLG: u32 = 8;
    let (needs, gives) = match op[0] {
        // XybToMixedLms, Matrix, HlgInverseOotf, ToneMapRec2408, GamutMap, TransferFunction Hlg
        0 | 3 | 5 | 6 | 8 => (3, 3),
        4 if op[1] == HLG => (3, 3),
        1 => (1, 3),         // LumaToXyz
        2 => (3, 1),         // XyzToLuma
        7 => (1, 1),         // ToneMapLumaRec2408
        _ => (width, width), // Clip, other TransferFunction
    };
    (needs == width).then_some(gives)
}

#[cfg(test)]
mod tests {
    use super::*;
    use crate::block::cases;

    /// The widths that each kind leads to from 1 and from 3, 0 where it needs another.
    #[test]
    fn table() {
        let ends = |start| -> Vec<u8> {
            (0..10)
                .map(|kind| end_width(start, &[cases::op(kind)]))
                .collect()
        };
        assert_eq!(ends(1), [0, 3, 0, 0, 1, 0, 0, 1, 0, 1]);
        assert_eq!(ends(3), [3, 0, 1, 3, 3, 3, 3, 0, 3, 3]);
        let hlg = |start| end_width(start, &[vec![4, 8, 0, 0, 0, 0, 0, 0, 0]]);
        assert_eq!((hlg(1), hlg(3)), (0, 3));
    }

    /// A start width or a count that 10 refuses, and an op that 5 refuses: what comes after does not mend it.
    #[test]
    fn none() {
        let clips = |n| vec![vec![9]; n];
        assert_eq!(
            [0, 1, 2, 3, 255].map(|start| end_width(start, &[])),
            [0, 1, 0, 3, 0]
        );
        assert_eq!((end_width(3, &clips(32)), end_width(3, &clips(33))), (3, 0));
        assert_eq!(end_width(1, &[cases::op(2), cases::op(9), cases::op(1)]), 0);
    }
}
