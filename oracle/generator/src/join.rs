//! Pairs of lists as a caller hands them over, and what joining them answers and gives; the Rust has no such thing, so it is worked out from W12.
//! What the joined list merges to is the Rust's.

use crate::block::cases::op;
use crate::debug;
use crate::lists::{self, List, checked, well_formed};
use crate::ops::{Op, list};
use crate::record::{Kind, Record, next};
use crate::rng::Rng;
use std::io::Write;

type Pair = [List; 2];

/// What joining answers: the width that the list ends at, or a number and a position.
type Answer = Result<u8, (u32, usize)>;

/// "10 for either list or a joint count above 32; then 5, at the position in the joined order": one walk through that order, in which the
/// second list's start width must stand where the first list has ended.
fn join([first, second]: &Pair) -> Answer {
    if first.is_malformed() || second.is_malformed() || first.count + second.count > 32 {
        return Err((10, 0));
    }
    let ops = ops(first, second);
    let mut width = first.start;
    for position in 0..=ops.len() {
        if position == first.count && width != second.start {
            return Err((5, position));
        }
        let next = &ops[position..ops.len().min(position + 1)];
        width = checked(width, next).map_err(|_| (5, position))?;
    }
    Ok(width)
}

fn ops(first: &List, second: &List) -> Vec<Op> {
    [first.ops(), second.ops()].concat()
}

/// Start widths, slots and counts of both; number, position and width; the start width and the list that is given, "the empty list with width 0"
/// where it is refused; what that list merges to.
fn record(pair: &Pair) -> Record {
    let [first, second] = pair;
    let asked = Record::new(Kind::Join)
        .words(&first.words())
        .words(&second.words());
    match join(pair) {
        Err((number, position)) => asked
            .words(&[number, position as u32, 0])
            .words(&[0, 0, 0])
            .words(&[0, 0]),
        Ok(width) => {
            let (start, ops) = (first.start as usize, ops(first, second));
            asked
                .words(&[0, 0, width as u32])
                .words(&[start as u32])
                .words(&lists::words(start, &ops))
                .words(&debug::words(&list(start, &ops).merged()))
        }
    }
}

pub fn write(rng: &mut Rng, count: usize, out: &mut impl Write) {
    let mut fixed = fixed().into_iter();
    let mut seen = Seen::default();
    for _ in 0..count {
        let (pair, record) = next(&mut fixed, || random(rng), record);
        seen.count(&pair);
        record.write(out);
    }
    eprintln!("join: {count} pairs, {seen}");
}

/// How many pairs are refused, by what.
#[derive(Default)]
struct Seen {
    first_malformed: usize,
    second_malformed: usize,
    too_many: usize,
    in_first: usize,
    between: usize,
    in_second: usize,
}

impl Seen {
    fn count(&mut self, pair: &Pair) {
        let [first, second] = pair;
        let place = match join(pair) {
            Ok(_) => return,
            Err((10, _)) if first.is_malformed() => &mut self.first_malformed,
            Err((10, _)) if second.is_malformed() => &mut self.second_malformed,
            Err((10, _)) => &mut self.too_many,
            Err((_, position)) if position < first.count => &mut self.in_first,
            Err(_) if checked(first.start, &first.ops()) == Ok(second.start) => &mut self.in_second,
            Err(_) => &mut self.between,
        };
        *place += 1;
    }
}

impl std::fmt::Display for Seen {
    fn fmt(&self, f: &mut std::fmt::Formatter) -> std::fmt::Result {
        write!(
            f,
            "refused by 10: {} for the first list, {} for the second alone, {} for the joint count; by 5: {} in the first, {} between, {} in the second",
            self.first_malformed,
            self.second_malformed,
            self.too_many,
            self.in_first,
            self.between,
            self.in_second
        )
    }
}

fn fixed() -> Vec<Pair> {
    let lists = small();
    let mut pairs: Vec<Pair> = Vec::new();
    for first in &lists {
        pairs.extend(lists.iter().map(|second| [first.clone(), second.clone()]));
    }
    pairs.extend(counts());
    pairs.extend(malformed());
    pairs
}

/// No op; ops that stay, go from one width to the other and back; such as fail at the first op, between and at the last; runs of matrices at
/// either end.
fn small() -> Vec<List> {
    let mut lists = vec![
        List::new(3, vec![op(3)]),
        List::new(3, vec![op(3), op(3), op(9), op(3)]),
        List::new(3, vec![op(0), op(3), op(2)]),
    ];
    for start in [1, 3] {
        lists.extend([
            List::new(start, vec![]),
            List::new(start, vec![op(9)]),
            List::new(start, vec![op(1)]),
            List::new(start, vec![op(2), op(4)]),
            List::new(start, vec![op(9), op(1), op(3), op(2)]),
            List::new(start, vec![op(9), op(2), op(9), op(2)]),
        ]);
    }
    lists
}

/// Clips, each way around 32 of them; the same with a first list, a seam and a second list that 5 would refuse: 10 comes before it.
fn counts() -> Vec<Pair> {
    let clips = |start, n| List::new(start, vec![op(9); n]);
    let failing = |n: usize| List::new(1, [vec![op(9); n - 1], vec![op(2)]].concat());
    let sizes = [
        (0, 32),
        (32, 0),
        (16, 16),
        (16, 17),
        (17, 16),
        (31, 1),
        (31, 2),
        (32, 1),
        (1, 32),
        (32, 32),
    ];
    let mut pairs = Vec::new();
    for (m, n) in sizes {
        pairs.extend([1, 3].map(|start| [clips(start, m), clips(start, n)]));
        pairs.push([clips(1, m), clips(3, n)]);
        if m > 0 {
            pairs.push([failing(m), clips(1, n)]);
        }
        if n > 0 {
            pairs.push([clips(1, m), failing(n)]);
        }
    }
    // a count below that of the slots, and one above
    let luma = List::new(1, vec![op(1), op(2), op(8)]);
    for count in 0..=5 {
        pairs.push([luma.clone().counted(count), clips(3, 1)]);
        pairs.push([clips(1, 2), luma.clone().counted(count)]);
    }
    pairs
}

/// A start width, a count or an end width that 10 refuses, in either list and in both, beside a list that passes and one that fails.
fn malformed() -> Vec<Pair> {
    let clip = List::new(3, vec![op(9)]);
    let fails = List::new(3, vec![op(9), op(1)]);
    let mut bad: Vec<List> = [0, 2, 4, 255]
        .map(|start| clip.clone().starting(start))
        .into();
    bad.extend([33, 34, 0xffff_ffff].map(|count| clip.clone().counted(count)));
    bad.extend([0, 1, 2, 255].map(|end| clip.clone().ending(end)));
    bad.push(fails.clone().ending(3));
    let mut pairs = Vec::new();
    for list in &bad {
        for other in [&clip, &fails, list] {
            pairs.push([list.clone(), other.clone()]);
            pairs.push([other.clone(), list.clone()]);
        }
    }
    pairs
}

/// Two lists, the second of which mostly starts where the first ends, mostly of ops that find their widths.
fn random(rng: &mut Rng) -> Pair {
    let start = rng.pick(&[1, 3]);
    let first = any(rng, start);
    let start = if rng.one_in(5) {
        rng.pick(&[1, 3])
    } else {
        end(&first)
    };
    let second = any(rng, start);
    [first, second]
}

/// The width that a list ends at, or 3 where it does not.
fn end(list: &List) -> u8 {
    let ends = well_formed(list.start, list.count).then(|| checked(list.start, &list.ops()));
    ends.and_then(Result::ok).unwrap_or(3)
}

fn any(rng: &mut Rng, start: u8) -> List {
    let longest = rng.pick(&[1, 3, 6, 8]);
    let mut width = start as usize;
    let ops = (0..rng.below(longest + 1))
        .map(|_| {
            if rng.one_in(16) {
                let kind = rng.below(10) as u32;
                return rng.op(kind);
            }
            let (op, next) = rng.carried(width);
            width = next;
            op
        })
        .collect();
    let list = List::new(start, ops);
    if rng.one_in(12) {
        return list.counted(rng.below(36) as usize);
    }
    if rng.one_in(12) {
        return list.ending(rng.pick(&[0, 1, 2, 3]));
    }
    list
}

#[cfg(test)]
mod tests {
    use super::*;

    fn clips(start: u8, n: usize) -> List {
        List::new(start, vec![op(9); n])
    }

    /// Each way to be refused, in the order of W12.
    #[test]
    fn refusals() {
        let luma = || List::new(3, vec![op(9), op(2)]);
        assert_eq!(join(&[luma(), clips(1, 2)]), Ok(1));
        assert_eq!(join(&[luma(), clips(3, 2)]), Err((5, 2)));
        assert_eq!(join(&[luma(), clips(3, 0)]), Err((5, 2)));
        assert_eq!(
            join(&[luma(), List::new(1, vec![op(9), op(2)])]),
            Err((5, 3))
        );
        assert_eq!(
            join(&[List::new(1, vec![op(9), op(2)]), clips(3, 2)]),
            Err((5, 1))
        );
        assert_eq!(join(&[clips(3, 16), clips(3, 16)]), Ok(3));
        assert_eq!(join(&[clips(3, 16), clips(3, 17)]), Err((10, 0)));
        assert_eq!(join(&[clips(3, 1).ending(1), clips(3, 1)]), Err((10, 0)));
        assert_eq!(
            join(&[List::new(1, vec![op(2)]), clips(3, 1).ending(1)]),
            Err((10, 0))
        );
    }
}
