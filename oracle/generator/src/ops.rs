//! Ops by chance, as words.

use crate::debug;
use crate::rng::Rng;
use given::ColorTransform;
use given::door::word;

/// An op as 01's plan block has it: a kind and its fields.
pub type Op = Vec<u32>;

/// The ops' names, by their kinds.
pub const NAMES: [&str; 10] = [
    "XybToMixedLms",
    "LumaToXyz",
    "XyzToLuma",
    "Matrix",
    "TransferFunction",
    "HlgInverseOotf",
    "ToneMapRec2408",
    "ToneMapLumaRec2408",
    "GamutMap",
    "Clip",
];

/// "Curves: .. 3 Unknown": whether an op has the curve that W10 retires.
pub fn is_retired(op: &Op) -> bool {
    op[0] == 4 && op[1] == 3
}

/// The Rust's list of these ops.
pub fn list(start: usize, ops: &[Op]) -> ColorTransform {
    let list = ColorTransform::from_words(start, ops.len(), &ops.concat());
    assert_eq!(debug::ops(&list), ops);
    list
}

impl Rng {
    /// An op of this kind with any fields.
    pub fn op(&mut self, kind: u32) -> Op {
        let floats = match kind {
            0 | 8 => 4,
            1 => 2,
            3 => 9,
            4 | 5 => 5,
            6 | 7 => 6,
            _ => 0,
        };
        let mut op = vec![kind];
        if kind == 4 {
            let curve = self.below(9) as u32;
            op.extend([
                curve,
                if curve < 2 {
                    self.below(1 << 24) as u32
                } else {
                    0
                },
            ]);
            op.push(self.below(2) as u32);
        }
        let tame = !self.one_in(4);
        op.extend((0..floats).map(|_| {
            word(if tame {
                self.scaled(-6, 1)
            } else {
                self.colour()
            })
        }));
        if kind == 6 || kind == 7 {
            op.push(self.below(2) as u32);
        }
        op
    }

    /// A carried op that a list of this width takes next, and the width after it.
    pub fn carried(&mut self, width: usize) -> (Op, usize) {
        let kinds: &[u32] = if width == 1 {
            &[1, 1, 4, 9]
        } else {
            &[0, 2, 3, 3, 3, 4, 9]
        };
        let kind = self.pick(kinds);
        let mut op = self.op(kind);
        if kind == 4 {
            // Unknown or Linear
            op[1..3].copy_from_slice(&[self.pick(&[3, 4]), 0]);
        }
        let width = match kind {
            1 => 3,
            2 => 1,
            _ => width,
        };
        (op, width)
    }
}
