//! Chroma at half width. The Rust has none, so whole numbers judge, after 02.

use crate::bytes::{Lent, TO_RGB, byte, converted, lent, record};
use crate::firmware::{UNKNOWN, in_turn, judged};
use crate::record::{Kind, Record};
use crate::rng::Rng;
use std::io::Write;

/// "output 2i is the whole number nearest (3c[i] + c[i-1])/4 and output 2i+1 the one nearest
/// (3c[i] + c[i+1])/4" (02, W13): the line with each end twice, seen three bytes at a time.
fn widened(line: &[u8], length: usize) -> Option<Vec<u8>> {
    let twice = 2 * line.len();
    if length != twice && length + 1 != twice {
        return None;
    }
    let ends: Vec<u8> = line
        .first()
        .into_iter()
        .chain(line)
        .chain(line.last())
        .copied()
        .collect();
    let two = |three: &[u8]| {
        let [before, this, after] = [0, 1, 2].map(|i| three[i] as i64);
        [byte(3 * this + before, 4), byte(3 * this + after, 4)]
    };
    Some(ends.windows(3).flat_map(two).take(length).collect())
}

/// "each pair's mean, nearest, halves upward, and an odd last byte as it is" (02, W13).
fn narrowed(line: &[u8], length: usize) -> Option<Vec<u8>> {
    let one = |pair: &[u8]| match *pair {
        [a, b] => byte(a as i64 + b as i64, 2),
        _ => pair[0],
    };
    let all: Vec<u8> = line.chunks(2).map(one).collect();
    (all.len() == length).then_some(all)
}

/// What is done to a line: 0 widens, 1 narrows.
const WAYS: [fn(&[u8], usize) -> Option<Vec<u8>>; 2] = [widened, narrowed];

/// Any bytes, ends and middles, or neighbours that differ little.
fn line(rng: &mut Rng, length: usize) -> Vec<u8> {
    let (style, base) = (rng.below(3), rng.below(252) as u8);
    let mut one = || match style {
        0 => rng.below(256) as u8,
        1 => rng.pick(&[0, 1, 127, 128, 254, 255]),
        _ => base + rng.below(4) as u8,
    };
    (0..length).map(|_| one()).collect()
}

/// Every length from 0 to 40, each way, into lines that fit and that are too short or too long.
fn fixed() -> Vec<(usize, usize, usize)> {
    let each = |n: usize| {
        let widen = (0..4).map(move |less| (0, n, (2 * n + 1).checked_sub(less)));
        let narrow = (0..3).map(move |less| (1, n, (n.div_ceil(2) + 1).checked_sub(less)));
        widen.chain(narrow)
    };
    let some = |(way, n, m): (usize, usize, Option<usize>)| m.map(|m| (way, n, m));
    (0..=40).flat_map(each).filter_map(some).collect()
}

/// Either way, to a length that fits; in one of eight to another.
fn random(rng: &mut Rng) -> (usize, usize, usize) {
    let (way, n) = (rng.below(2) as usize, rng.length());
    let fits = [(2 * n).saturating_sub(rng.below(2) as usize), n.div_ceil(2)][way];
    let m = if rng.one_in(8) { rng.length() } else { fits };
    (way, n, m)
}

pub fn write(rng: &mut Rng, count: usize, out: &mut impl Write) {
    let mut fixed = fixed().into_iter();
    let mut done = [0; 2];
    for _ in 0..count {
        let (way, n, m) = fixed.next().unwrap_or_else(|| random(rng));
        let (given, old) = (line(rng, n), line(rng, m));
        let made = WAYS[way](&given, m);
        done[way] += made.is_some() as usize;
        let number = if made.is_some() { 0 } else { 4 };
        Record::new(Kind::Half)
            .words(&[way as u32, n as u32, m as u32])
            .packed(&given)
            .packed(&old)
            .packed(&made.unwrap_or(old))
            .words(&[number])
            .write(out);
    }
    let [widened, narrowed] = done;
    let refused = count - widened - narrowed;
    eprintln!("half: {count} lines, {widened} widened, {narrowed} narrowed, {refused} refused");
}

/// "what widening both and then the byte conversion for that firmware give" (02, W13).
fn of_line(firmware: u32, [cb, y, cr, r, g, b]: &Lent) -> (u32, [Vec<u8>; 3]) {
    let [y, r, g, b] = [y, r, g, b].map(Vec::clone);
    match (widened(cb, y.len()), widened(cr, y.len())) {
        (Some(cb), Some(cr)) => converted(&TO_RGB, firmware, &[cb, y, cr, r, g, b]),
        _ => (judged(firmware, false).number(), [r, g, b]),
    }
}

fn lengths(n: usize, m: usize) -> [usize; 6] {
    [n, m, n, m, m, m]
}

/// Chroma of every length from 0 to 40, with a Y of both lengths; each of the six lengths one more
/// or one less, or two; and firmwares that are not known.
fn fixed_lines(rng: &mut Rng) -> Vec<(u32, Lent)> {
    let mut all = Vec::new();
    for n in 0..=40usize {
        for m in [2 * n, (2 * n).saturating_sub(1)] {
            all.push((in_turn(all.len()), lent(rng, lengths(n, m))));
        }
    }
    for (n, m) in [(1, 1), (1, 2), (5, 9), (5, 10)] {
        for at in 0..6 {
            for other in [-2, -1, 1, 2] {
                let mut six = lengths(n, m);
                if let Some(length) = six[at].checked_add_signed(other) {
                    six[at] = length;
                    all.push((in_turn(all.len()), lent(rng, six)));
                }
            }
        }
        all.push((in_turn(all.len()), lent(rng, lengths(m, n))));
    }
    for firmware in UNKNOWN {
        for six in [lengths(5, 10), lengths(5, 9), lengths(5, 8), [5; 6]] {
            all.push((firmware, lent(rng, six)));
        }
    }
    all
}

/// Mostly lengths that fit; in one of eight records one is another, or all are any.
fn random_line(rng: &mut Rng) -> Lent {
    let n = rng.length();
    let mut six = lengths(n, (2 * n).saturating_sub(rng.below(2) as usize));
    match rng.below(16) {
        0 => six[rng.below(6) as usize] = rng.length(),
        1 => six = six.map(|_| rng.length()),
        _ => {}
    }
    six.map(|length| line(rng, length))
}

pub fn write_lines(rng: &mut Rng, count: usize, out: &mut impl Write) {
    let mut fixed = fixed_lines(rng).into_iter();
    let (mut pixels, mut by_bt709, mut refused) = (0, 0, 0);
    for i in 0..count {
        let (firmware, six) = fixed
            .next()
            .unwrap_or_else(|| (in_turn(i), random_line(rng)));
        let (number, left) = of_line(firmware, &six);
        if number == 0 {
            pixels += six[1].len();
            by_bt709 += if firmware == 4 { six[1].len() } else { 0 };
        }
        refused += (number != 0) as usize;
        record(Kind::Line, firmware, &six, &left, number).write(out);
    }
    eprintln!("lines: {count} of {pixels} pixels, {by_bt709} of them by BT.709, {refused} refused");
}

#[cfg(test)]
mod tests {
    use super::{narrowed, widened};

    #[test]
    fn by_hand() {
        assert_eq!(widened(&[], 0), Some(vec![]));
        assert_eq!(widened(&[], 1), None);
        assert_eq!(widened(&[7], 1), Some(vec![7]));
        assert_eq!(widened(&[0, 255], 4), Some(vec![0, 64, 191, 255]));
        assert_eq!(widened(&[0, 2, 0], 6), Some(vec![0, 1, 2, 2, 1, 0]));
        assert_eq!(widened(&[0, 2, 0], 4), None);
        assert_eq!(narrowed(&[0, 1, 255], 2), Some(vec![1, 255]));
        assert_eq!(narrowed(&[], 0), Some(vec![]));
        assert_eq!(narrowed(&[3], 0), None);
    }
}
