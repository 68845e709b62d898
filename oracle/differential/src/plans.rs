//! Plans between two encodings, as their plan blocks. The Rust's ops are read from its plan, which must print as they say, and written by the oracle's own
//! writer, which refuses a NaN by 9 as the library does. Where 15 is given the Rust was not asked.

use crate::sides::{settings, side};
use crate::tally::Tally;
use oracle::lists::List;
use oracle::plan::{self, Case};
use oracle::rng::Rng;
use oracle::{debug, writing};
use rindsaddle::Plan;

/// A block, or the number of the refusal.
type Answer = Result<Vec<u8>, u32>;

pub fn compare(rng: &mut Rng, tally: &mut Tally) {
    let case = plan::random(rng);
    let version = rng.pick(&[1, 2]);
    let (given, ours) = (by_given(&case, version), by_library(&case, version));
    tally.note(match given {
        Ok(_) => "made, as blocks",
        Err(3) => "refused by 3, an error of the Rust's",
        Err(9) => "refused by 9, as a field of the Rust's plan is NaN",
        _ => return tally.note("left out: the Unknown curve, which is refused by 15"),
    });
    tally.add(given == ours, || format!("{case:?}: {given:?} by the Rust, {ours:?} here"));
}

fn by_given(case: &Case, version: u16) -> Answer {
    let plan = plan::planned(case)?;
    let list = List::new(plan.input_channels() as u8, debug::ops(&plan));
    let mut block = vec![0; 1192];
    let length = writing::write_into(&list, version, &mut block)?;
    block.truncate(length);
    Ok(block)
}

fn by_library(case: &Case, version: u16) -> Answer {
    let plan = Plan::new(side(&case.from), side(&case.to), &settings(&case.settings));
    plan.and_then(|plan| plan.to_block(version)).map_err(|refusal| refusal.number().into())
}
