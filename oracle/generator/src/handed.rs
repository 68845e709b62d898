//! Lists as a caller hands them over, lawful or not, with an end width that is true or false: what every entry answers that takes one.
//! The Rust's lists have none, and it refuses none, so what is answered here is worked out from 01, W8 and W10.

use crate::block::cases::op;
use crate::lists::{List, checked, well_formed};
use crate::ops::{NAMES, Op, is_retired};
use crate::record::{Kind, Record, next};
use crate::rng::Rng;
use crate::writing::{self, write_into};
use std::io::Write;

/// Number, position and width.
type Answer = [u32; 3];

/// "Check 10, 5."
fn check(list: &List) -> Answer {
    if list.is_malformed() {
        return [10, 0, 0];
    }
    match checked(list.start, &list.ops()) {
        Ok(width) => [0, 0, width as u32],
        Err(position) => [5, position as u32, 0],
    }
}

/// "Carried by the executor: XybToMixedLms, Matrix, LumaToXyz, XyzToLuma, Clip, and TransferFunction Linear or Unknown."
fn is_carried(op: &Op) -> bool {
    match op[0] {
        0..=3 | 9 => true,
        4 => matches!(op[1], 3 | 4),
        _ => false,
    }
}

/// "Run 10, 4, 5, 6", the lent lengths being equal.
fn run(list: &List) -> Answer {
    let answer = check(list);
    if answer[0] != 0 {
        return answer;
    }
    match list.ops().iter().position(|op| !is_carried(op)) {
        Some(position) => [6, position as u32, 0],
        None => answer,
    }
}

/// What the list program prints of it. It "adds the word `retired` after the op's name". "A width refusal replaces the last line by `refused 5 at P`"; where 10 refuses, `refused 10` alone.
fn text(list: &List) -> String {
    let [number, position, width] = check(list);
    if number == 10 {
        return "refused 10\n".to_string();
    }
    let mut text = format!("start {} ops {}\n", list.start, list.count);
    for (i, op) in list.ops().iter().enumerate() {
        let mark = if is_retired(op) { " retired" } else { "" };
        text += &format!("{i} {}{mark}\n", NAMES[op[0] as usize]);
    }
    text + &match number {
        0 => format!("end {width}\n"),
        _ => format!("refused {number} at {position}\n"),
    }
}

/// Start width, slots and count; what the check answers; merging's number; what a run answers, its number on channels of unequal lengths, and
/// that of a strip; the numbers of writing it in version 1, 2 and 3; the text.
fn record(list: &List) -> Record {
    let (check, run) = (check(list), run(list));
    let merge = if check[0] == 10 { 10 } else { 0 };
    let unequal = if check[0] == 10 { 10 } else { 4 };
    let strip = if run[0] == 0 { 0 } else { 11 };
    let written = |version| write_into(list, version, &mut [0; 2048]).err().unwrap_or(0);
    let text = text(list);
    Record::new(Kind::Handed)
        .words(&list.words())
        .words(&check)
        .words(&[merge])
        .words(&run)
        .words(&[unequal, strip])
        .words(&[1, 2, 3].map(written))
        .words(&[text.len() as u32])
        .packed(text.as_bytes())
}

pub fn write(rng: &mut Rng, count: usize, out: &mut impl Write) {
    let mut fixed = fixed().into_iter();
    let (mut refused, mut falsely) = ([0; 11], 0);
    for _ in 0..count {
        let (list, record) = next(&mut fixed, || random(rng), record);
        refused[run(&list)[0] as usize] += 1;
        falsely += (well_formed(list.start, list.count) && list.ends_falsely()) as usize;
        record.write(out);
    }
    eprintln!(
        "handed: {count} lists, {} of them refused by 5, {} by 6 and {} by 10, of these {falsely} for their end width alone",
        refused[5], refused[6], refused[10]
    );
}

/// Each of the lists that are written, and some more, with each end width; start widths and counts that are not lawful; other counts than
/// that of the ops in the slots.
fn fixed() -> Vec<List> {
    let curve = |number| vec![4, number, 0, 1, 0, 0, 0, 0, 0];
    let mut lists = writing::cases::lists();
    for start in [1, 3] {
        lists.extend([
            List::new(start, vec![op(1), op(2)]),
            List::new(start, vec![op(2), op(1)]),
            List::new(start, vec![op(2), op(7), op(4), op(9), op(1), op(3)]),
            List::new(start, vec![op(9), op(8), op(3), op(6)]),
            List::new(start, vec![op(9), op(3), op(1), op(9), op(2)]),
            List::new(start, [3, 4, 5, 8].map(curve).into()),
            List::new(start, vec![op(9), vec![1, f32::NAN.to_bits(), 0]]),
            List::new(start, (0..32).map(|i| op(1 + i % 2)).collect()),
        ]);
    }
    let clip = List::new(3, vec![op(9)]);
    let luma = List::new(1, vec![op(1), op(2), op(8)]);
    lists.extend([0, 2, 4, 255].map(|start| clip.clone().starting(start)));
    lists.extend([33, 34, 64, 256, 257, 0xffff_ffff].map(|count| clip.clone().counted(count)));
    lists.extend((0..=5).map(|count| luma.clone().counted(count)));
    let with_ends = |list: List| [0, 1, 2, 3, 255].map(|end| list.clone().ending(end));
    lists.into_iter().flat_map(with_ends).collect()
}

/// Any list, mostly of ops that find their widths, with an end width that is mostly true.
fn random(rng: &mut Rng) -> List {
    let start = rng.pick(&[1, 3]);
    let longest = rng.pick(&[2, 4, 8, 16]);
    let mut width = start as usize;
    let ops = (0..rng.below(longest + 1))
        .map(|_| {
            if rng.one_in(6) {
                let kind = rng.below(10) as u32;
                return rng.op(kind);
            }
            let (op, next) = rng.carried(width);
            width = next;
            op
        })
        .collect();
    let mut list = List::new(start, ops);
    if rng.one_in(8) {
        list = list.counted(rng.below(36) as usize);
    }
    if rng.one_in(3) {
        let any = rng.next() as u8;
        list = list.ending(rng.pick(&[0, 1, 2, 3, any]));
    }
    list
}

#[cfg(test)]
mod tests {
    use super::*;

    /// 01's listed text.
    #[test]
    fn listed() {
        let list = &writing::cases::lists()[0];
        assert_eq!(
            text(list),
            "start 1 ops 3\n0 Clip\n1 LumaToXyz\n2 XyzToLuma\nend 1\n"
        );
        assert_eq!((check(list), run(list)), ([0, 0, 1], [0, 0, 1]));
    }

    /// A false end width is refused before all else.
    #[test]
    fn told_falsely() {
        let list = List::new(1, vec![op(9), op(8)]);
        assert_eq!((check(&list), list.end), ([5, 1, 0], 0));
        let list = list.ending(1);
        assert_eq!((check(&list), run(&list)), ([10, 0, 0], [10, 0, 0]));
        assert_eq!(text(&list), "refused 10\n");
        assert_eq!(write_into(&list, 3, &mut []), Err(10));
    }
}
