//! The correctly rounded cube root, by whole numbers, and how often others differ from it.

use crate::floats::{LARGEST_SUBNORMAL, MAX, TINY, power};
use crate::libm;
use crate::record::{Kind, Record};
use crate::rng::Rng;
use given::door::word;
use std::io::Write;

/// A positive finite float x = h * 8 ^ a, with h in [2 ^ 69, 2 ^ 72), so that the whole root of h
/// has 24 digits; and that root.
struct Scaled {
    h: u128,
    a: i32,
    root: u128,
}

fn cube(w: u128) -> u128 {
    w * w * w
}

fn scaled(x: f32) -> Scaled {
    let (field, fraction) = (x.to_bits() >> 23, x.to_bits() & 0x7fffff);
    let (mut h, mut e) = match field {
        0 => (fraction as u128, -149),
        _ => ((fraction | 0x800000) as u128, field as i32 - 150),
    };
    while h < 1 << 69 || e % 3 != 0 {
        h <<= 1;
        e -= 1;
    }
    let mut root = 0;
    for place in (0..24).rev() {
        let next = root | 1 << place;
        if cube(next) <= h {
            root = next;
        }
    }
    Scaled { h, a: e / 3, root }
}

impl Scaled {
    /// Eight times h, less the cube of the odd number of half units that lies in the middle of the
    /// root and the next float. It is never 0.
    fn past_middle(&self) -> i128 {
        8 * self.h as i128 - cube(2 * self.root + 1) as i128
    }

    /// The root or the next float, whichever is nearer; both are whole numbers up to 2 ^ 24.
    fn nearest(&self) -> f32 {
        let root = self.root + (self.past_middle() > 0) as u128;
        root as f32 * power(self.a)
    }
}

/// "the f32 nearest the exact root, stated over whole numbers; zeros, infinities and NaN map to
/// themselves" (01).
pub fn exact(x: f32) -> f32 {
    if x == 0.0 || !x.is_finite() {
        return x;
    }
    scaled(x.abs()).nearest().copysign(x)
}

pub fn write(rng: &mut Rng, count: usize, out: &mut impl Write) {
    let cbrtf = libm::cbrtf();
    let mut fixed = fixed().into_iter();
    let (mut rust, mut library) = (0, 0);
    for turn in 0..count {
        let x = match fixed.next() {
            Some(x) => x,
            None => match turn % 4 {
                0 => near_middle(rng),
                1 => at_middle(rng),
                2 => near_cube(rng),
                _ => rng.any(),
            },
        };
        let r = exact(x);
        rust += (word(x.cbrt()) != word(r)) as usize;
        library += (word(cbrtf(x)) != word(r)) as usize;
        Record::new(Kind::Cbrt).floats(&[x, r]).write(out);
    }
    eprintln!(
        "cbrt: {count} cases; f32::cbrt as linked differs in {rust}, \
         the C library's cbrtf in {library}"
    );
}

fn fixed() -> Vec<f32> {
    let mut cases = vec![0.0, f32::INFINITY, f32::NAN, TINY, 2.0 * TINY, 3.0 * TINY];
    cases.extend([LARGEST_SUBNORMAL, f32::MIN_POSITIVE, MAX]);
    // the nearest are 3f800004, where glibc 2.36 says 3f800005, and 3fa14519
    cases.extend([f32::from_bits(0x3f80000d), f32::from_bits(0x40000002)]);
    for a in -49..=42 {
        let x = power(3 * a);
        cases.extend([
            x,
            f32::from_bits(x.to_bits() - 1),
            f32::from_bits(x.to_bits() + 1),
        ]);
    }
    cases.iter().flat_map(|&x| [x, -x]).collect()
}

/// x times a power of eight: the same digits of the root, at another place.
fn moved(rng: &mut Rng, x: f32) -> f32 {
    let sign = if rng.one_in(2) { -1.0 } else { 1.0 };
    // two steps, so that no power leaves the range of f32
    let a = rng.between(-42, 41);
    sign * x * power(3 * (a / 2)) * power(3 * (a - a / 2))
}

fn in_range(rng: &mut Rng) -> f32 {
    f32::from_bits(0x3f800000 + rng.below(3 << 23) as u32)
}

/// Of 4,096 floats from 1 to 8 the one whose root lies closest to the middle of two floats.
fn near_middle(rng: &mut Rng) -> f32 {
    let closest = (0..4096)
        .map(|_| in_range(rng))
        .min_by_key(|&x| scaled(x).past_middle().abs());
    moved(rng, closest.unwrap())
}

/// A float next to the cube of the middle of two floats.
fn at_middle(rng: &mut Rng) -> f32 {
    let middle = (2 * rng.below(1 << 23) + (1 << 24) + 1) as f64 / (1 << 24) as f64;
    let x = (middle * middle * middle) as f32;
    let x = f32::from_bits(x.to_bits().wrapping_add_signed(rng.between(-1, 1)));
    moved(rng, x)
}

/// A float next to the cube of a float of few digits.
fn near_cube(rng: &mut Rng) -> f32 {
    let root = rng.between(1, 1 << 9) as f32;
    let x = f32::from_bits(
        (root * root * root)
            .to_bits()
            .wrapping_add_signed(rng.between(-2, 2)),
    );
    moved(rng, x)
}

/// How many of a function's answers differ from the nearest float.
struct Census {
    name: &'static str,
    f: Box<dyn Fn(f32) -> f32>,
    differ: u64,
    furthest: u32,
    examples: Vec<f32>,
}

impl Census {
    fn new(name: &'static str, f: impl Fn(f32) -> f32 + 'static) -> Self {
        Self {
            name,
            f: Box::new(f),
            differ: 0,
            furthest: 0,
            examples: Vec::new(),
        }
    }

    fn look(&mut self, x: f32, nearest: f32) {
        let distance = (self.f)(x).to_bits().abs_diff(nearest.to_bits());
        if distance > 0 {
            self.differ += 1;
            self.furthest = self.furthest.max(distance);
            if self.examples.len() < 3 {
                self.examples.push(x);
            }
        }
    }

    fn print(&self, all: u64) {
        let percent = 100.0 * self.differ as f64 / all as f64;
        print!(
            "  {}: {} of {all} differ ({percent:.2} %)",
            self.name, self.differ
        );
        if self.differ > 0 {
            print!(", by at most {} unit(s) in the last place", self.furthest);
        }
        println!();
        for &x in &self.examples {
            let (got, nearest) = ((self.f)(x), exact(x));
            println!(
                "    {:08x} -> {:08x}, nearest {:08x}",
                x.to_bits(),
                got.to_bits(),
                nearest.to_bits()
            );
        }
    }
}

fn count_over(what: &str, patterns: impl Iterator<Item = u32>) {
    let cbrtf = libm::cbrtf();
    let mut all = 0;
    let mut counts = [
        Census::new("f32::cbrt", f32::cbrt),
        Census::new("cbrtf of libm.so.6", move |x| cbrtf(x)),
    ];
    for pattern in patterns {
        let x = f32::from_bits(pattern);
        let nearest = exact(x);
        all += 1;
        counts.iter_mut().for_each(|count| count.look(x, nearest));
    }
    println!("{what}:");
    counts.iter().for_each(|count| count.print(all));
}

/// Counts the answers that are not the nearest float.
pub fn census() {
    count_over("all f32 from 1 to below 8", 0x3f800000..0x41000000);
    count_over(
        "every 97th positive finite f32",
        (1..0x7f800000).step_by(97),
    );
}

#[cfg(test)]
mod tests {
    use super::exact;

    #[test]
    fn nearest_roots() {
        let root = |pattern| exact(f32::from_bits(pattern)).to_bits();
        assert_eq!(root(0x3f80000d), 0x3f800004);
        assert_eq!(root(0x40000002), 0x3fa14519);
        assert_eq!(exact(27.0), 3.0);
        assert_eq!(exact(-8.0), -2.0);
        assert_eq!(exact(-0.0).to_bits(), 0x80000000);
        assert_eq!(exact(f32::INFINITY), f32::INFINITY);
        assert!(exact(f32::NAN).is_nan());
        // 2 ^ -149 is 2 * 8 ^ -50, and the largest float just below 2 * 8 ^ 42
        assert_eq!(root(0x00000001), 0x26a14518);
        assert_eq!(root(0x7f7fffff), 0x54cb2ff5);
    }
}
