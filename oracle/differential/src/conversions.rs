//! YCbCr to RGB over floats, by the weights that the Rust has: those of firmware 1 to 3.

use crate::tally::Tally;
use given::door::word;
use oracle::rng::Rng;
use oracle::ycbcr::{self, Channels};

pub fn compare(rng: &mut Rng, tally: &mut Tally) {
    let length = rng.length();
    let channels = ycbcr::lent(rng, [length; 3]);
    let firmware = rng.pick(&[1, 2, 3]);
    let mut ours = channels.clone();
    let answer = rindsaddle::ycbcr_to_rgb(firmware, ours.each_mut().map(|channel| &mut channel[..]));
    let (_, given) = ycbcr::converted(firmware, channels.clone());
    let equal = answer.is_ok() && words(&ours) == words(&given);
    tally.add(equal, || format!("{channels:?}: {given:?} by the Rust, {answer:?} {ours:?} here"));
}

fn words(channels: &Channels) -> Vec<u32> {
    channels.iter().flatten().map(|&sample| word(sample)).collect()
}
