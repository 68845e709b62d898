//! Runs of lists that pass the width check and have only carried ops. Each is run here step by step, and as a plan block too, but where a field is NaN, which
//! no block holds: at once, by strips or on threads.

use crate::tally::Tally;
use given::door::word;
use oracle::rng::Rng;
use oracle::run::{self, Case};
use oracle::writing;
use rindsaddle::{Channels, Plan, Ran, Refusal, Strips, steps};

/// The width, how many samples within it are bad, and the channels, all NaNs as one.
type Ended = (usize, u64, Vec<u32>);

pub fn compare(rng: &mut Rng, tally: &mut Tally) {
    let case = run::random(rng);
    if case.wrong_roots() > 0 {
        return tally.note("left out: the root of a bias, as f32::cbrt is linked here, is not the nearest");
    }
    let (width, channels) = case.ended();
    let bad = run::bad(width, &channels, 0..case.length());
    let given = Ok((width, bad.into(), words(&channels)));
    let step_by_step = by_steps(&case);
    let (way, by_block) = by_block(rng, &case);
    tally.note(way);
    let equal = step_by_step == given && by_block.as_ref().is_none_or(|by_block| *by_block == given);
    tally.add(equal, || format!("{case:?}: {given:?} by the Rust; {step_by_step:?} step by step, {by_block:?} {way}"));
}

fn words(channels: &[Vec<f32>; 3]) -> Vec<u32> {
    channels.iter().flatten().map(|&sample| word(sample)).collect()
}

fn lend(channels: &mut [Vec<f32>; 3]) -> Channels<'_> {
    channels.each_mut().map(|channel| &mut channel[..])
}

fn by_block(rng: &mut Rng, case: &Case) -> (&'static str, Option<Result<Ended, Refusal>>) {
    let bytes = writing::block(case.start as u8, case.ops.len(), &case.ops);
    let plan = match Plan::from_block(&bytes) {
        Ok((plan, _)) => plan,
        Err(Refusal::BadOp) if has_nan(case) => return ("step by step alone, as a field is NaN", None),
        Err(other) => return ("read", Some(Err(other))),
    };
    let mut channels = case.channels.clone();
    let lent = lend(&mut channels);
    let (way, ran) = match rng.below(16) {
        0 => ("on threads", plan.run_on(2 + rng.below(3) as usize, lent)),
        1..8 => ("by strips", by_strips(rng, &plan, lent)),
        _ => ("at once", plan.run(lent)),
    };
    (way, Some(ran.map(|ran| (ran.width, ran.bad, words(&channels)))))
}

fn by_strips(rng: &mut Rng, plan: &Plan, mut rest: Channels) -> Result<Ran, Refusal> {
    let mut strips = Strips::new();
    strips.open(plan)?;
    while !rest[0].is_empty() {
        let size = rng.below(rest[0].len() as u64 + 1) as usize;
        let [a, b, c] = rest.map(|channel| channel.split_at_mut(size));
        strips.strip([a.0, b.0, c.0])?;
        rest = [a.1, b.1, c.1];
    }
    strips.close()
}

/// Whether a float of an op is NaN; the words of a TransferFunction that are no floats are none.
fn has_nan(case: &Case) -> bool {
    case.ops.iter().flat_map(|op| &op[1..]).any(|&field| f32::from_bits(field).is_nan())
}

fn by_steps(case: &Case) -> Result<Ended, Refusal> {
    let mut channels = case.channels.clone();
    let mut width = case.start as u8;
    for op in &case.ops {
        let floats: Vec<f32> = op[1..].iter().map(|&field| f32::from_bits(field)).collect();
        let [a, b, c] = lend(&mut channels);
        match (op[0], &floats[..]) {
            (0, &[l, m, s, intensity]) => steps::xyb_to_mixed_lms(&[l, m, s], intensity, [a, b, c])?,
            (1, &[x, y]) => steps::luma_to_xyz([x, y], [a, b, c])?,
            (2, _) => steps::xyz_to_luma(a, b, c)?,
            (3, floats) => steps::matrix(floats.try_into().expect("nine floats"), [a, b, c])?,
            (9, _) => steps::clip(width, [a, b, c])?,
            _ => steps::unchanged(width, [a, b, c])?,
        }
        width = match op[0] {
            1 => 3,
            2 => 1,
            _ => width,
        };
    }
    let bad = steps::count(width, channels.each_ref().map(|channel| &channel[..]));
    Ok((width.into(), bad, words(&channels)))
}
