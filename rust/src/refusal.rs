//! What is refused, by the numbers of the specification.

use std::error::Error;
use std::fmt;

/// Why nothing was done. A refusal changes no sample and no byte of the caller's.
#[derive(Clone, Copy, Debug, PartialEq, Eq, Hash)]
pub enum Refusal {
    /// 1: a side of the plan is an ICC profile.
    Icc,
    /// 2: a coordinate or `g` of a side is outside its range.
    OutOfRange,
    /// 3: the source is Unknown, or the target is Xyb or Unknown, and the sides are not equivalent.
    Unsupported,
    /// 4: the lengths are unequal, or chroma at half width does not fit them.
    Unequal,
    /// 5: an op needs another width than the one that it finds.
    Misfit {
        /// The first such op; of joined plans in the joined order.
        position: usize,
    },
    /// 6: an op is planned here and not carried out.
    NotCarried {
        /// The first such op.
        position: usize,
    },
    /// 7: the plan block ends early.
    Short,
    /// 8: no plan block, or a version other than 1 and 2.
    WrongMark,
    /// 9: an unknown op, a bad field or a false end width in a block; or a plan to be written with a NaN in a field.
    BadOp,
    /// 10: the start width is not 1 or 3, or there are more than 32 ops, of joined plans together.
    Malformed,
    /// 11: no run is open.
    NotOpen,
    /// 12: the buffer is too short.
    NoRoom,
    /// 13: the firmware is none of 1 to 4.
    Firmware,
    /// 14: a ten-bit code is above 1023.
    Code,
    /// 15: the Unknown curve, which is retired.
    Retired,
}

impl Refusal {
    /// Its number, 1 to 15.
    pub fn number(self) -> u8 {
        match self {
            Refusal::Icc => 1,
            Refusal::OutOfRange => 2,
            Refusal::Unsupported => 3,
            Refusal::Unequal => 4,
            Refusal::Misfit { .. } => 5,
            Refusal::NotCarried { .. } => 6,
            Refusal::Short => 7,
            Refusal::WrongMark => 8,
            Refusal::BadOp => 9,
            Refusal::Malformed => 10,
            Refusal::NotOpen => 11,
            Refusal::NoRoom => 12,
            Refusal::Firmware => 13,
            Refusal::Code => 14,
            Refusal::Retired => 15,
        }
    }

    /// The position that it names, and 0 where it names none.
    pub fn position(self) -> usize {
        match self {
            Refusal::Misfit { position } | Refusal::NotCarried { position } => position,
            _ => 0,
        }
    }

    /// What the library's answer means: nothing for 0, and else the refusal with this number.
    pub(crate) fn of(number: u8, position: u64) -> Result<(), Refusal> {
        let position = position as usize;
        Err(match number {
            0 => return Ok(()),
            1 => Refusal::Icc,
            2 => Refusal::OutOfRange,
            3 => Refusal::Unsupported,
            4 => Refusal::Unequal,
            5 => Refusal::Misfit { position },
            6 => Refusal::NotCarried { position },
            7 => Refusal::Short,
            8 => Refusal::WrongMark,
            9 => Refusal::BadOp,
            10 => Refusal::Malformed,
            11 => Refusal::NotOpen,
            12 => Refusal::NoRoom,
            13 => Refusal::Firmware,
            14 => Refusal::Code,
            15 => Refusal::Retired,
            _ => unreachable!("the library answers 0 to 15"),
        })
    }
}

/// `refused N: why`, with the position where one is named.
impl fmt::Display for Refusal {
    fn fmt(&self, f: &mut fmt::Formatter<'_>) -> fmt::Result {
        let number = self.number();
        let why = match self {
            Refusal::Icc => "a side of the plan is an ICC profile",
            Refusal::OutOfRange => "a coordinate or g is outside its range",
            Refusal::Unsupported => "the source is Unknown, or the target is Xyb or Unknown",
            Refusal::Unequal => "the lengths are unequal or do not fit",
            Refusal::Misfit { position } => return write!(f, "refused {number} at {position}: the op needs another width"),
            Refusal::NotCarried { position } => return write!(f, "refused {number} at {position}: the op is not carried"),
            Refusal::Short => "the plan block ends early",
            Refusal::WrongMark => "no plan block, or of an unknown version",
            Refusal::BadOp => "an unknown op or a bad field",
            Refusal::Malformed => "the start width is not 1 or 3, or there are more than 32 ops",
            Refusal::NotOpen => "no run is open",
            Refusal::NoRoom => "the buffer is too short",
            Refusal::Firmware => "the firmware is none of 1 to 4",
            Refusal::Code => "a ten-bit code is above 1023",
            Refusal::Retired => "the Unknown curve is retired",
        };
        write!(f, "refused {number}: {why}")
    }
}

impl Error for Refusal {}
