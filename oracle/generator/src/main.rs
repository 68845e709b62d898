//! Writes lists of recorded answers to standard output: `oracle KIND SEED COUNT`. See README.md.

use oracle::{
    block, bytes, cbrt, ciexyz, differences, fused, half, handed, join, merge, picture, plan, rng,
    run, screen, srgb10, strips, writing, ycbcr,
};
use std::io::{BufWriter, Write};

const USAGE: &str = "usage: oracle fused|cbrt|ciexyz|plan|merge|run|strips|ycbcr|block|screen|writing|block-second|writing-versions|handed|join|bytes|bytes-back|codes|levels|half|lines \
                     SEED COUNT, or oracle cbrt-census, or oracle screen-census, or oracle every-pixel, or oracle tie-census, or oracle codes-census, \
                     or oracle differences, or oracle picture-stale, or oracle picture-order, or oracle picture-biases";

fn number<T: std::str::FromStr>(word: Option<String>) -> T {
    word.and_then(|word| word.parse().ok()).expect(USAGE)
}

fn main() {
    let mut words = std::env::args().skip(1);
    let kind = words.next().expect(USAGE);
    match kind.as_str() {
        "cbrt-census" => return cbrt::census(),
        "screen-census" => return screen::census(),
        "every-pixel" => return bytes::every(),
        "tie-census" => return bytes::census(),
        "codes-census" => return srgb10::census(),
        "differences" => return differences::print(),
        "picture-stale" => return picture::stale(),
        "picture-order" => return picture::order(),
        "picture-biases" => return picture::biases(),
        _ => {}
    }
    let rng = &mut rng::Rng::new(number(words.next()));
    let count: usize = number(words.next());
    let out = &mut BufWriter::new(std::io::stdout().lock());
    match kind.as_str() {
        "fused" => fused::write(rng, count, out),
        "cbrt" => cbrt::write(rng, count, out),
        "ciexyz" => ciexyz::write(rng, count, out),
        "plan" => plan::write(rng, count, out),
        "merge" => merge::write(rng, count, out),
        "run" => run::write(rng, count, out),
        "strips" => strips::write(rng, count, out),
        "ycbcr" => ycbcr::write(rng, count, out),
        "block" => block::write(rng, count, out),
        "screen" => screen::write(rng, count, out),
        "writing" => writing::write(rng, count, out),
        "bytes" => bytes::write(rng, count, out),
        "bytes-back" => bytes::write_back(rng, count, out),
        "half" => half::write(rng, count, out),
        "lines" => half::write_lines(rng, count, out),
        "codes" => srgb10::write_codes(rng, count, out),
        "levels" => srgb10::write_levels(rng, count, out),
        "block-second" => block::write_second(rng, count, out),
        "writing-versions" => writing::write_versions(rng, count, out),
        "handed" => handed::write(rng, count, out),
        "join" => join::write(rng, count, out),
        _ => panic!("{USAGE}"),
    }
    out.flush().expect("standard output");
}
