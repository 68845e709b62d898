//! `differential SEED COUNT`, or `differential SEED MINUTESm`: so many plans, runs and conversions each, or as many as the minutes hold, by the given Rust
//! and by the library. It says how many were compared and how many differ, and shows the first that does.

mod conversions;
mod plans;
mod runs;
mod sides;
mod tally;

use oracle::rng::Rng;
use std::process::ExitCode;
use std::time::{Duration, Instant};
use tally::Tally;

const USAGE: &str = "usage: differential SEED COUNT, or differential SEED MINUTESm, as differential 7 100000 or differential 7 5m";

/// When to end.
enum Until {
    Count(u64),
    Time(Instant),
}

impl Until {
    fn read(word: &str) -> Option<Self> {
        match word.strip_suffix('m') {
            Some(minutes) => Some(Until::Time(Instant::now() + Duration::from_secs(minutes.parse::<u64>().ok()? * 60))),
            None => Some(Until::Count(word.parse().ok()?)),
        }
    }

    fn is_over(&self, done: u64) -> bool {
        match self {
            Until::Count(count) => done >= *count,
            Until::Time(end) => Instant::now() >= *end,
        }
    }
}

fn asked() -> Option<(u64, Until)> {
    let words: Vec<String> = std::env::args().skip(1).collect();
    let [seed, until] = &words[..] else {
        return None;
    };
    Some((seed.parse().ok()?, Until::read(until)?))
}

fn main() -> ExitCode {
    let Some((seed, until)) = asked() else {
        eprintln!("{USAGE}");
        return ExitCode::from(2);
    };
    let rng = &mut Rng::new(seed);
    let [mut plans, mut runs, mut conversions] = ["plans", "runs", "conversions"].map(Tally::new);
    let mut done = 0;
    while !until.is_over(done) {
        plans::compare(rng, &mut plans);
        runs::compare(rng, &mut runs);
        conversions::compare(rng, &mut conversions);
        done += 1;
    }
    let all = [plans, runs, conversions];
    for tally in &all {
        print!("{tally}");
    }
    ExitCode::from(all.iter().any(Tally::differs) as u8)
}
