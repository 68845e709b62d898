//! Which weights a firmware means: "1 to 3 means T.871, 4 means BT.709", "13 for any other
//! firmware, tested before 4" (02, W7).

/// Firmwares that are not known.
pub const UNKNOWN: [u32; 4] = [0, 5, 255, u32::MAX];

/// Those that are known, in turn, every second one 4.
pub fn in_turn(i: usize) -> u32 {
    [1, 4, 2, 4, 3, 4][i % 6]
}

#[derive(Clone, Copy)]
pub enum Judged {
    T871,
    Bt709,
    /// The number of the refusal.
    Refused(u32),
}

impl Judged {
    pub fn number(self) -> u32 {
        match self {
            Judged::Refused(number) => number,
            _ => 0,
        }
    }
}

pub fn judged(firmware: u32, equal: bool) -> Judged {
    match (firmware, equal) {
        (1..=3, true) => Judged::T871,
        (4, true) => Judged::Bt709,
        (1..=4, false) => Judged::Refused(4),
        _ => Judged::Refused(13),
    }
}
