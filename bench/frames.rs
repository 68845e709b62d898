//! Frames of three channels, by the given loops and by our C functions: compared bit for bit, and timed (W14).
//!
//! The given loops are those of jxl-color 0.11.0, which `bench/run frames` cuts from its files when it builds this. Ours are linked in.

use std::hint::{black_box, spin_loop};
use std::sync::atomic::{AtomicUsize, Ordering::*};
use std::thread;
use std::time::Instant;

#[path = "frames/linked.rs"]
mod ours;

#[path = "frames/given.rs"]
mod given;
#[path = "frames/samples.rs"]
mod samples;
#[cfg(without)]
#[path = "frames/without.rs"]
mod without;

/// Where `convert.rs` looks for it.
use given::ciexyz;
use samples::{Frame, Kind};

const ROUNDS: usize = 61;
const SIZES: [usize; 3] = [1_024, 65_536, 1_048_576];

/// Who makes a frame of a frame.
#[derive(Clone, Copy, PartialEq)]
enum By {
    /// As the crate does: AVX and FMA, where the machine has them.
    Crate,
    /// The same loop for any processor, and as one without a fused instruction has it.
    Generic,
    Ours,
    /// Ours with the count of bad samples behind it.
    Counted,
    /// Ours as one call, which reads the plan block, runs its two steps and counts.
    Block,
}

/// What is made, and who makes it; the first is what the others must equal, and what a ratio is to.
struct Work {
    name: &'static str,
    kind: Kind,
    by: &'static [By],
}

const WORKS: [Work; 7] = [
    work("XYB", Kind::Xyb, &[By::Crate, By::Generic, By::Ours]),
    work("Matrix", Kind::Matrix, &[By::Crate, By::Ours]),
    work(
        "XYB and Matrix",
        Kind::Both,
        &[By::Crate, By::Generic, By::Ours],
    ),
    work("Clip", Kind::Clip, &[By::Crate, By::Ours]),
    work("screen bytes", Kind::Screen, &[By::Generic, By::Ours]),
    work("YCbCr", Kind::Ycbcr, &[By::Crate, By::Generic, By::Ours]),
    work(
        "XYB and Matrix, counted",
        Kind::Both,
        &[By::Ours, By::Counted, By::Block],
    ),
];

const fn work(name: &'static str, kind: Kind, by: &'static [By]) -> Work {
    Work { name, kind, by }
}

fn make(kind: Kind, by: By, frame: &mut Frame) {
    match by {
        By::Crate => given::make(kind, true, frame),
        By::Generic => given::make(kind, false, frame),
        By::Ours => ours::make(kind, frame),
        By::Counted => ours::make(Kind::Counted, frame),
        By::Block => ours::make(Kind::Block, frame),
    }
}

/// How many samples or bytes differ from what the first makes, over pictures of each size and over a frame of any bits.
fn compared(work: &Work) -> (usize, usize) {
    let mut frames: Vec<Frame> = SIZES
        .iter()
        .map(|&n| samples::picture(work.kind, n))
        .collect();
    frames.push(samples::any_bits(4_096));
    let (mut all, mut differ) = (0, 0);
    for frame in &frames {
        let words: Vec<Vec<u32>> = work
            .by
            .iter()
            .map(|&by| {
                let mut made = frame.clone();
                make(work.kind, by, &mut made);
                made.words()
            })
            .collect();
        for other in &words[1..] {
            all += other.len();
            differ += words[0].iter().zip(other).filter(|(a, b)| a != b).count();
        }
    }
    (all, differ)
}

/// The times of each maker, in nanoseconds, sorted; the order changes from round to round.
fn timed_alone(work: &Work, from: &Frame) -> Vec<Vec<f64>> {
    let mut times = vec![Vec::new(); work.by.len()];
    let mut frame = from.clone();
    for round in 0..ROUNDS {
        for turn in 0..work.by.len() {
            let who = (round + turn) % work.by.len();
            frame.clone_from(from);
            let start = Instant::now();
            make(work.kind, work.by[who], black_box(&mut frame));
            times[who].push(start.elapsed().as_nanos() as f64);
            black_box(&frame);
        }
    }
    sorted(times)
}

/// The same on two cores: another thread makes the second half. Both wait by spinning, so that nobody is woken.
fn timed_by_two(work: &Work, from: &Frame) -> Vec<Vec<f64>> {
    let (first, second) = from.halves();
    let (asked, ready, done) = (
        AtomicUsize::new(0),
        AtomicUsize::new(0),
        AtomicUsize::new(0),
    );
    let wait = |number: &AtomicUsize, value: usize| {
        while number.load(Acquire) < value {
            spin_loop();
        }
    };
    let turns = ROUNDS * work.by.len();
    let who = |turn: usize| (turn / work.by.len() + turn % work.by.len()) % work.by.len();
    let mut times = vec![Vec::new(); work.by.len()];
    thread::scope(|scope| {
        scope.spawn(|| {
            let mut frame = second.clone();
            for turn in 0..turns {
                frame.clone_from(&second);
                ready.store(turn + 1, Release);
                wait(&asked, turn + 1);
                make(work.kind, work.by[who(turn)], black_box(&mut frame));
                done.store(turn + 1, Release);
            }
        });
        let mut frame = first.clone();
        for turn in 0..turns {
            frame.clone_from(&first);
            wait(&ready, turn + 1);
            let start = Instant::now();
            asked.store(turn + 1, Release);
            make(work.kind, work.by[who(turn)], black_box(&mut frame));
            wait(&done, turn + 1);
            times[who(turn)].push(start.elapsed().as_nanos() as f64);
        }
    });
    sorted(times)
}

fn sorted(mut times: Vec<Vec<f64>>) -> Vec<Vec<f64>> {
    for t in &mut times {
        t.sort_by(f64::total_cmp);
    }
    times
}

fn name(by: By) -> &'static str {
    match by {
        By::Crate => "the crate",
        By::Generic => "generic",
        By::Ours => "ours",
        By::Counted => "with the count",
        By::Block => "by the block",
    }
}

/// A row for each maker: median and best, and the ratios of its median to those of the others before it.
fn print(work: &Work, samples: usize, cores: usize, times: &[Vec<f64>]) {
    for (who, t) in times.iter().enumerate() {
        let median = t[ROUNDS / 2];
        let mut ratios = String::new();
        for other in 0..who {
            let to = times[other][ROUNDS / 2];
            ratios += &format!("  {:.2} of {}", median / to, name(work.by[other]));
        }
        let (median, best) = (median / 1e3, t[0] / 1e3);
        println!(
            "{:<24}{samples:>10}{cores:>3}  {:<15}{median:>11.1}{best:>11.1}{ratios}",
            work.name,
            name(work.by[who])
        );
    }
}

fn main() {
    let mut differ = 0;
    for work in &WORKS {
        let (all, other) = compared(work);
        println!("{:<24}{all} compared, {other} differ", work.name);
        differ += other;
    }
    println!(
        "\nwhat, samples of a channel, cores, by whom, median and best of {ROUNDS} in microseconds, ratios of medians"
    );
    for work in &WORKS {
        for samples in SIZES {
            let frame = samples::picture(work.kind, samples);
            print(work, samples, 1, &timed_alone(work, &frame));
            print(work, samples, 2, &timed_by_two(work, &frame));
        }
    }
    std::process::exit((differ != 0) as i32);
}
