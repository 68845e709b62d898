//! Pictures of docs/PICTURES.md: what the given Rust makes of a drawn box where we refuse, with matrices in the wrong order, and by the cube root that is linked.
//! Portable float maps, little-endian, come on standard input, one behind the other, and one goes to standard output.

use crate::debug::ops;
use crate::differences::{op, plan, settings, side};
use crate::ops::{NAMES, list};
use given::door::{adapt_mat, matmul3, primaries_to_xyz_mat, word, xyz_to_primaries_mat};
use given::{
    ColorTransform, ColourSpace, Customxy, EnumColourEncoding, Primaries, RenderingIntent,
    TransferFunction, WhitePoint,
};
use std::io::{BufRead, BufWriter, Write};

/// The white of lamps: illuminant A.
const LAMPS: WhitePoint = WhitePoint::Custom(Customxy {
    x: 447_570,
    y: 407_450,
});

/// What a picture may name in place of JPEG XL's own; glibc's `cbrtf` misses its root.
const OTHER_BIAS: f32 = -0.00415;

struct Map {
    size: String,
    channels: Vec<Vec<f32>>,
}

/// A grey plane, with two channels of the map behind it in the other two buffers, run by a colour plan whose start width is made 1.
pub fn stale() {
    let input = &mut std::io::stdin().lock();
    let mut grey = Map::read(input);
    let other = Map::read(input);
    grey.channels.extend_from_slice(&other.channels[1..]);
    let source = EnumColourEncoding {
        primaries: Primaries::P3,
        ..linear(ColourSpace::Rgb)
    };
    let plan = plan(source, linear(ColourSpace::Rgb), settings(255.0, false));
    run(&list(1, &ops(&plan)), grey);
}

/// From XYB to the white of lamps, with the run of three matrices multiplied left operand first.
pub fn order() {
    let target = EnumColourEncoding {
        white_point: LAMPS,
        ..linear(ColourSpace::Rgb)
    };
    let plan = plan(linear(ColourSpace::Xyb), target, settings(255.0, false));
    let mut ops = ops(&plan);
    let merged = ops.last_mut().expect("the merged matrix");
    let first = primaries_to_xyz_mat(Primaries::Srgb, WhitePoint::D65);
    let second = adapt_mat(WhitePoint::D65, LAMPS);
    let third = xyz_to_primaries_mat(Primaries::Srgb, LAMPS);
    let right = matmul3(&third, &matmul3(&second, &first));
    assert_eq!(*merged, op(3, &right), "the Rust's own product");
    *merged = op(3, &matmul3(&matmul3(&first, &second), &third));
    run(&list(3, &ops), Map::read(&mut std::io::stdin().lock()));
}

/// From XYB with other biases, by the cube root that this program is linked with.
pub fn biases() {
    let mut settings = settings(255.0, false);
    settings.opsin.opsin_bias = [OTHER_BIAS; 3];
    let plan = plan(linear(ColourSpace::Xyb), linear(ColourSpace::Rgb), settings);
    eprintln!("the root of {OTHER_BIAS}: {:08x}", word(OTHER_BIAS.cbrt()));
    run(&plan, Map::read(&mut std::io::stdin().lock()));
}

fn linear(colour_space: ColourSpace) -> EnumColourEncoding {
    side(
        colour_space,
        TransferFunction::Linear,
        RenderingIntent::Relative,
    )
}

/// Runs the list on a map, says which ops it has, and writes the map.
fn run(plan: &ColorTransform, mut map: Map) {
    let mut lent: Vec<&mut [f32]> = map.channels.iter_mut().map(|c| &mut c[..]).collect();
    let width = plan.run(&mut lent).expect("a run of carried ops");
    let names: Vec<_> = ops(plan).iter().map(|op| NAMES[op[0] as usize]).collect();
    let (start, names) = (plan.input_channels(), names.join(", "));
    eprintln!("the Rust: start {start}, {names}, end {width}");
    map.write();
}

impl Map {
    fn read(input: &mut impl BufRead) -> Map {
        let mut line = || {
            let mut line = String::new();
            input.read_line(&mut line).expect("a line of the head");
            line.trim_end().to_string()
        };
        let (mark, size, order) = (line(), line(), line());
        assert_eq!(order, "-1.0", "a little-endian map");
        let width = if mark == "PF" { 3 } else { 1 };
        let sides = size.split(' ').map(|n| n.parse::<usize>().expect("a size"));
        let mut bytes = vec![0; sides.product::<usize>() * width * 4];
        input.read_exact(&mut bytes).expect("a whole map");
        let (samples, _) = bytes.as_chunks();
        let samples = samples.iter().map(|&sample| f32::from_le_bytes(sample));
        let channel = |k| samples.clone().skip(k).step_by(width).collect();
        Map {
            size,
            channels: (0..width).map(channel).collect(),
        }
    }

    fn write(&self) {
        let out = &mut BufWriter::new(std::io::stdout().lock());
        write!(out, "PF\n{}\n-1.0\n", self.size).expect("standard output");
        for i in 0..self.channels[0].len() {
            for channel in &self.channels {
                out.write_all(&channel[i].to_le_bytes())
                    .expect("standard output");
            }
        }
        out.flush().expect("standard output");
    }
}
