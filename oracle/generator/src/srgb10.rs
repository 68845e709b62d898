//! sRGB codes of ten bits. The Rust has none, so whole numbers judge, after 02: the curve's fifth powers are compared as they are.

use crate::record::{Kind, Record};
use crate::rng::Rng;
use std::cmp::Ordering;
use std::io::Write;

const CODES: u16 = 1024;

/// A product of whole numbers, in digits of 32 bits, the lowest first.
#[derive(PartialEq, Eq)]
struct Product(Vec<u32>);

impl Product {
    fn of(factors: impl IntoIterator<Item = u32>) -> Self {
        factors.into_iter().fold(Self(vec![1]), Self::times)
    }

    fn times(mut self, factor: u32) -> Self {
        let mut carry = 0;
        for digit in &mut self.0 {
            let sum = *digit as u64 * factor as u64 + carry;
            (*digit, carry) = (sum as u32, sum >> 32);
        }
        self.0.push(carry as u32);
        while self.0.last() == Some(&0) {
            self.0.pop();
        }
        self
    }
}

impl Ord for Product {
    fn cmp(&self, other: &Self) -> Ordering {
        let by_digits = || self.0.iter().rev().cmp(other.0.iter().rev());
        self.0.len().cmp(&other.0.len()).then_with(by_digits)
    }
}

impl PartialOrd for Product {
    fn partial_cmp(&self, other: &Self) -> Option<Ordering> {
        Some(self.cmp(other))
    }
}

fn power(base: u32, exponent: usize) -> impl Iterator<Item = u32> {
    std::iter::repeat_n(base, exponent)
}

/// Twice "65535 times the IEC 61966-2-1 curve at code/1023", without its fraction.
fn doubled(code: u32) -> u32 {
    if code * 100_000 <= 4045 * 1023 {
        return 2 * 65535 * 100 * code / (1292 * 1023);
    }
    // ((x + 0.055) / 1.055) ^ 2.4 is (top / under) ^ (12 / 5): the largest number whose fifth power is not above.
    let (top, under) = (1000 * code + 55 * 1023, 1055 * 1023);
    let limit = Product::of(power(2 * 65535, 5).chain(power(top, 12)));
    let fits = |n: u32| Product::of(power(n, 5).chain(power(under, 12))) <= limit;
    let (mut fitting, mut too_large) = (0, 2 * 65535 + 1);
    while too_large - fitting > 1 {
        let middle = (fitting + too_large) / 2;
        if fits(middle) {
            fitting = middle;
        } else {
            too_large = middle;
        }
    }
    fitting
}

/// The level of each code: "the whole number nearest".
fn table() -> Vec<u16> {
    let level = |code| (doubled(code as u32) + 1) / 2;
    (0..CODES).map(|code| level(code) as u16).collect()
}

/// The codes whose entry is nearest a level, the lowest first: one, or two on a tie.
fn nearest(table: &[u16], level: u16) -> Vec<u16> {
    let apart = |&code: &u16| table[code as usize].abs_diff(level);
    let least = (0..CODES).map(|code| apart(&code)).min();
    (0..CODES)
        .filter(|code| Some(apart(code)) == least)
        .collect()
}

/// "the code whose entry is nearest, the lower one on a tie", for each level.
fn back(table: &[u16]) -> Vec<u16> {
    (0..=u16::MAX)
        .map(|level| nearest(table, level)[0])
        .collect()
}

/// "a single such code gives level 0"
fn level_of(table: &[u16], code: u16) -> u16 {
    table.get(code as usize).copied().unwrap_or(0)
}

/// A code, its level, and the first and last level whose code it is; 1 and 0 where there is none.
pub fn write_codes(rng: &mut Rng, count: usize, out: &mut impl Write) {
    let table = table();
    let back = back(&table);
    let above = [1024, 1025, 2047, 4095, 32767, 32768, 65535];
    let mut fixed = (0..CODES).chain(above);
    for _ in 0..count {
        let code = fixed.next().unwrap_or_else(|| rng.next() as u16);
        let first = back.iter().position(|&c| c == code).unwrap_or(1);
        let last = back.iter().rposition(|&c| c == code).unwrap_or(0);
        let words = [code, level_of(&table, code)].map(u32::from);
        Record::new(Kind::Code)
            .words(&words)
            .words(&[first as u32, last as u32])
            .write(out);
    }
    eprintln!("codes: {count} codes, with the levels that return to each");
}

/// "Refusals: in order 4, then 14 for a code above 1023, nothing written", and else the levels.
fn levels(table: &[u16], codes: &[u16], room: usize) -> Result<Vec<f32>, u32> {
    if codes.len() != room {
        return Err(4);
    }
    let level = |&code: &u16| table.get(code as usize).ok_or(14u32);
    let divided = |level: &u16| *level as f32 / 65535.0;
    codes.iter().map(|code| level(code).map(divided)).collect()
}

/// n, the codes, m, what each of the m levels holds before; the number, the m levels after.
pub fn write_levels(rng: &mut Rng, count: usize, out: &mut impl Write) {
    let table = table();
    let mut fixed = fixed().into_iter();
    let (mut all, mut refused) = (0, [0; 15]);
    for _ in 0..count {
        let (codes, room) = fixed.next().unwrap_or_else(|| random(rng));
        let before = rng.between(-8, 8) as f32 / 4.0;
        let answer = levels(&table, &codes, room);
        let number = answer.as_ref().err().copied().unwrap_or(0);
        all += codes.len();
        refused[number as usize] += 1;
        let words: Vec<u32> = codes.iter().map(|&code| code as u32).collect();
        Record::new(Kind::Levels)
            .words(&[words.len() as u32])
            .words(&words)
            .words(&[room as u32])
            .floats(&[before])
            .words(&[number])
            .floats(&answer.unwrap_or_else(|_| vec![before; room]))
            .write(out);
    }
    eprintln!(
        "levels: {count} conversions of {all} codes, {} of them refused by 4 and {} by 14",
        refused[4], refused[14]
    );
}

/// Codes, and how many levels there are.
type Case = (Vec<u16>, usize);

fn fixed() -> Vec<Case> {
    let run = |n: u16| (0..n).map(|i| i * 5).collect::<Vec<u16>>();
    let all: Vec<u16> = (0..CODES).collect();
    let mut cases: Vec<Case> = all.chunks(200).map(|c| (c.to_vec(), c.len())).collect();
    cases.extend([0, 1, 2, 200].map(|n| (run(n), n as usize)));
    cases.extend(
        [(0, 1), (1, 0), (4, 5), (5, 4), (200, 199), (199, 200)].map(|(n, room)| (run(n), room)),
    );
    for (length, code) in [
        (1, 1024),
        (2, 1025),
        (3, 65535),
        (9, 1024),
        (200, 1024),
        (200, 32768),
    ] {
        for place in [0, length / 2, length - 1] {
            let mut codes = run(length);
            codes[place as usize] = code;
            // As many levels, one more, one less: 14, 4 and 4.
            let rooms = [length, length + 1, length - 1];
            cases.extend(rooms.map(|room| (codes.clone(), room as usize)));
        }
    }
    cases.push((vec![1024; 9], 9));
    cases
}

fn random(rng: &mut Rng) -> Case {
    let length = if rng.one_in(8) {
        rng.below(201) as usize
    } else {
        rng.length()
    };
    let mut codes: Vec<u16> = (0..length).map(|_| rng.below(1024) as u16).collect();
    if length > 0 && rng.one_in(6) {
        codes[rng.below(length as u64) as usize] = rng.between(1024, 65535) as u16;
    }
    let room = if rng.one_in(8) { rng.length() } else { length };
    (codes, room)
}

/// A polynomial of the numbers, by the largest prime below 2^32.
fn digest(numbers: &[u16]) -> u64 {
    let taken = |digest: u64, &number: &u16| (digest * 65_599 + number as u64 + 1) % 4_294_967_291;
    numbers.iter().fold(0, taken)
}

/// What the program `all_codes` must print.
pub fn census() {
    let table = table();
    let back = back(&table);
    let returning = (0..CODES).filter(|&code| back[table[code as usize] as usize] == code);
    let tied = |&level: &u16| nearest(&table, level).len() > 1;
    let ties: Vec<u16> = (0..=u16::MAX).filter(tied).collect();
    let above = (CODES..=u16::MAX).filter(|&code| level_of(&table, code) != 0);
    println!("1024 codes, digest of their levels {}", digest(&table));
    println!("65536 levels, digest of their codes {}", digest(&back));
    println!("codes that return to themselves {}", returning.count());
    println!("codes above 1023 with a level {}", above.count());
    println!("ties {}, the first at level {}", ties.len(), ties[0]);
}

#[cfg(test)]
mod tests {
    use super::{Product, back, digest, table};

    #[test]
    fn products() {
        assert_eq!(Product::of([65536, 65536, 7]).0, [0, 7]);
        assert!(Product::of([65536, 65536]) > Product::of([u32::MAX]));
        assert!(Product::of([3, 5, 7]) < Product::of([106]));
    }

    /// The curve in f64 is near enough to tell where the level must lie.
    #[test]
    fn levels_of_the_curve() {
        for (code, &level) in table().iter().enumerate() {
            let x = code as f64 / 1023.0;
            let curve = if x <= 0.04045 {
                x / 12.92
            } else {
                ((x + 0.055) / 1.055).powf(2.4)
            };
            assert!((65535.0 * curve - level as f64).abs() < 0.500001, "{code}");
        }
    }

    #[test]
    fn codes_return() {
        let table = table();
        let back = back(&table);
        assert!((0..1024u16).all(|code| back[table[code as usize] as usize] == code));
        assert_eq!((table[0], table[1023]), (0, 65535));
        assert_eq!((back[57], back[56]), (11, 11));
        assert_ne!(digest(&table), digest(&table[..1023]));
    }
}
