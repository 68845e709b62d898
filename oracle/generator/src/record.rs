//! A record: one line of words, each of eight hexadecimal digits.

use given::door::word;
use std::fmt::Debug;
use std::io::Write;

/// The kinds of records, as README.md lists them.
#[derive(Clone, Copy)]
pub enum Kind {
    Fused = 1,
    Cbrt = 2,
    Matmul3 = 3,
    Matmul3vec = 4,
    Matinv = 5,
    IlluminantToXyz = 6,
    AdaptMatXy = 7,
    AdaptMat = 8,
    PrimariesToXyzMatXy = 9,
    PrimariesToXyzMat = 10,
    XyzToPrimariesMatXy = 11,
    XyzToPrimariesMat = 12,
    Plan = 13,
    Merge = 14,
    Run = 15,
    Ycbcr = 16,
    Block = 17,
    Screen = 18,
    Strips = 19,
    Writing = 20,
    Bytes = 21,
    Code = 22,
    Levels = 23,
    Handed = 24,
    BytesBack = 25,
    Join = 26,
    Half = 27,
    Line = 28,
}

/// The longest line, with its newline.
pub const LONGEST: usize = 4000;

pub struct Record(Vec<u32>);

/// The next case with its record: a fixed one, each of which has room in a line, and after them the first random one that has.
pub fn next<C: Debug>(
    fixed: &mut impl Iterator<Item = C>,
    mut random: impl FnMut() -> C,
    record: impl Fn(&C) -> Record,
) -> (C, Record) {
    if let Some(case) = fixed.next() {
        let record = record(&case);
        assert!(record.is_short(), "too long a case: {case:?}");
        return (case, record);
    }
    loop {
        let case = random();
        let record = record(&case);
        if record.is_short() {
            return (case, record);
        }
    }
}

impl Record {
    pub fn new(kind: Kind) -> Self {
        Self(vec![kind as u32])
    }

    pub fn words(mut self, words: &[u32]) -> Self {
        self.0.extend(words);
        self
    }

    pub fn floats(mut self, floats: &[f32]) -> Self {
        self.0.extend(floats.iter().map(|&x| word(x)));
        self
    }

    /// Bytes, four to a word, the first in its highest two digits.
    pub fn packed(mut self, bytes: &[u8]) -> Self {
        self.0.extend(bytes.chunks(4).map(|chunk| {
            let mut four = [0; 4];
            four[..chunk.len()].copy_from_slice(chunk);
            u32::from_be_bytes(four)
        }));
        self
    }

    /// The bytes that its line takes.
    pub fn bytes(&self) -> usize {
        9 * self.0.len()
    }

    pub fn is_short(&self) -> bool {
        self.bytes() <= LONGEST
    }

    pub fn write(&self, out: &mut impl Write) {
        assert!(self.is_short(), "a line of {} bytes", self.bytes());
        let words: Vec<String> = self.0.iter().map(|w| format!("{w:08x}")).collect();
        writeln!(out, "{}", words.join(" ")).expect("standard output");
    }
}
