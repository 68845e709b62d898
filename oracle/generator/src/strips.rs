//! Runs of the Rust, each cut into strips: what a run by strips must end with is what the Rust makes of the whole.

use crate::record::{Kind, LONGEST};
use crate::rng::Rng;
use crate::run;
use std::io::Write;

pub fn write(rng: &mut Rng, count: usize, out: &mut impl Write) {
    let (mut strips, mut refused) = (0, 0);
    for _ in 0..count {
        let (case, cuts) = loop {
            let case = run::random(rng);
            let cuts = cuts(rng, case.length());
            if case.asked(Kind::Strips).bytes() + 9 * (3 + 2 * cuts.len() + 3 * case.length()) <= LONGEST {
                break (case, cuts);
            }
        };
        strips += cuts.len();
        refused += cuts.iter().filter(|&cut| cut % 2 == 1).count();
        let record = case.asked(Kind::Strips).words(&[cuts.len() as u32]).words(&cuts).words(&counts(&case, &cuts));
        case.answered(record).write(out);
    }
    eprintln!("strips: {count} runs, of {strips} strips, {refused} of them after a refused one");
}

/// Strips that make up a length: of none, one, sixteen, any number of samples, or of all that are left. Each is twice its length,
/// and one more where a refused strip comes before it.
fn cuts(rng: &mut Rng, length: usize) -> Vec<u32> {
    let mut left = length;
    let mut cuts = vec![];
    let style = rng.below(5);
    loop {
        let strip = match style {
            0 => left,
            1 => rng.pick(&[0, 1]),
            2 => 16,
            3 => rng.pick(&[0, 0, 1, left]),
            _ => rng.below(left as u64 + 1) as usize,
        }
        .min(left);
        left -= strip;
        cuts.push(2 * strip as u32 + u32::from(rng.one_in(4)));
        if left == 0 && !rng.one_in(4) {
            return cuts;
        }
    }
}

/// How many samples of each strip end infinite or NaN.
fn counts(case: &run::Case, cuts: &[u32]) -> Vec<u32> {
    let (width, channels) = case.ended();
    let mut at = 0;
    cuts.iter()
        .map(|cut| {
            let from = at;
            at += (cut / 2) as usize;
            run::bad(width, &channels, from..at)
        })
        .collect()
}
