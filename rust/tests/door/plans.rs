//! Plans made, read, written, merged and joined: 01's readings.

use crate::common::*;
use rindsaddle::*;

const LINEAR: TransferFunction = TransferFunction::Linear;

#[test]
fn made() {
    let white_point = WhitePoint::Custom(Customxy { x: 312_700, y: 329_000 });
    let rgb = side(ColourSpace::Rgb, LINEAR);
    let settings = &Settings::default();
    let plan = Plan::new(EnumColourEncoding::xyb(RenderingIntent::Relative), rgb, settings).unwrap();
    assert_eq!((plan.input_channels(), plan.output_channels(), plan.is_noop()), (3, 3, false));
    assert_eq!((plan.to_block(1).unwrap().len(), plan.to_block(2).unwrap().len()), (61, 62));
    let plan = Plan::new(rgb, EnumColourEncoding { white_point, ..rgb }, settings).unwrap();
    assert_eq!(plan.to_string(), "start 3 ops 3\n0 TransferFunction\n1 Clip\n2 Matrix\nend 3\n");
    let grey = side(ColourSpace::Grey, LINEAR);
    let plan = Plan::new(grey, grey, settings).unwrap();
    assert_eq!((plan.input_channels(), plan.output_channels(), plan.is_noop()), (1, 1, true));
    let plan = Plan::new(side(ColourSpace::Grey, TransferFunction::Hlg), rgb, settings).unwrap();
    assert_eq!((plan.output_channels(), plan.check()), (0, Err(Refusal::Misfit { position: 0 })));
}

/// Each named value reaches the library as itself: sides that differ in one are not equivalent.
#[test]
fn each_value() {
    let point = |x: i32, y: i32| Customxy { x, y };
    let (red, green) = (point(680_000, 320_000), point(265_000, 690_000));
    let custom = Primaries::Custom { red, green, blue: point(150_000, 60_000) };
    let other = Primaries::Custom { red, green, blue: point(150_000, 60_001) };
    let whites =
        [WhitePoint::D65, WhitePoint::E, WhitePoint::Dci, WhitePoint::Custom(point(300_000, 310_000)), WhitePoint::Custom(point(300_000, 310_001))];
    let primaries = [Primaries::Srgb, Primaries::Bt2100, Primaries::P3, custom, other];
    let gammas = [(1, false), (2, false), (1, true)].map(|(g, inverted)| TransferFunction::Gamma { g, inverted });
    let named = [TransferFunction::Bt709, LINEAR, TransferFunction::Srgb, TransferFunction::Pq, TransferFunction::Dci, TransferFunction::Hlg];
    let intents = [RenderingIntent::Perceptual, RenderingIntent::Relative, RenderingIntent::Saturation, RenderingIntent::Absolute];
    let rgb = side(ColourSpace::Rgb, LINEAR);
    let mut all: Vec<EnumColourEncoding> = Vec::new();
    all.extend(whites.iter().map(|&white_point| EnumColourEncoding { white_point, ..rgb }));
    all.extend(primaries.iter().skip(1).map(|&primaries| EnumColourEncoding { primaries, ..rgb }));
    all.extend(gammas.iter().chain(&named).filter(|&&tf| tf != LINEAR).map(|&tf| EnumColourEncoding { tf, ..rgb }));
    all.extend(intents.iter().filter(|&&i| i != rgb.rendering_intent).map(|&rendering_intent| EnumColourEncoding { rendering_intent, ..rgb }));
    for (i, &one) in all.iter().enumerate() {
        for (j, &two) in all.iter().enumerate() {
            let plan = Plan::new(one, two, &Settings::default()).unwrap();
            assert_eq!(plan.is_noop(), i == j, "{one:?} to {two:?}");
        }
    }
}

/// The settings stand in the block where 01 puts them.
#[test]
fn settings() {
    let inv_mat = [[1.0, 2.0, 3.0], [4.0, 5.0, 6.0], [7.0, 8.0, 9.0]];
    let settings = Settings { inv_mat, opsin_bias: [10.0, 11.0, 12.0], intensity_target: 13.0, ..Settings::default() };
    let plan = Plan::new(EnumColourEncoding::xyb(RenderingIntent::Relative), side(ColourSpace::Rgb, LINEAR), &settings).unwrap();
    let block = plan.to_block(1).unwrap();
    let floats: Vec<f32> = [&block[8..24], &block[25..]].concat().chunks(4).map(|b| f32::from_le_bytes([b[0], b[1], b[2], b[3]])).collect();
    assert_eq!(floats, [10.0, 11.0, 12.0, 13.0, 1.0, 2.0, 3.0, 4.0, 5.0, 6.0, 7.0, 8.0, 9.0]);
    let (pq, srgb) = (side(ColourSpace::Rgb, TransferFunction::Pq), side(ColourSpace::Rgb, TransferFunction::Srgb));
    for detect_peak in [false, true] {
        let settings = Settings { intensity_target: 300.0, min_nits: 0.25, detect_peak, ..Settings::default() };
        let block = Plan::new(pq, srgb, &settings).unwrap().to_block(1).unwrap();
        let tone_map = &block[34..60];
        assert_eq!((tone_map[0], &tone_map[17..21], tone_map[25]), (6, &0.25f32.to_le_bytes()[..], detect_peak as u8));
    }
    let hlg = side(ColourSpace::Rgb, TransferFunction::Hlg);
    let lengths = [false, true].map(|from_pq| {
        let settings = Settings { intensity_target: 4000.0, from_pq, ..Settings::default() };
        Plan::new(pq, hlg, &settings).unwrap().to_string().lines().count()
    });
    assert_eq!(lengths, [4, 6]);
}

#[test]
fn blocks() {
    let bytes = [EXAMPLE, b"picture"].concat();
    let (plan, rest) = Plan::from_block(&bytes).unwrap();
    assert_eq!(rest, b"picture");
    assert_eq!(plan.to_string(), "start 1 ops 3\n0 Clip\n1 LumaToXyz\n2 XyzToLuma\nend 1\n");
    assert_eq!((plan.check(), plan.to_block(1).unwrap()), (Ok(1), EXAMPLE.to_vec()));
    let second = plan.to_block(2).unwrap();
    let (again, rest) = Plan::from_block(&second).unwrap();
    assert_eq!((again.to_block(1).unwrap(), rest), (EXAMPLE.to_vec(), &[][..]));
    let mut room = [0xa5; 20];
    assert_eq!(plan.write_block(1, &mut room), Ok(18));
    assert_eq!((&room[..18], &room[18..]), (EXAMPLE, &[0xa5; 2][..]));
    assert_eq!(read(&retired()).to_string(), "start 1 ops 1\n0 TransferFunction retired\nend 1\n");
    assert_eq!(read(MISFIT).to_string(), "start 1 ops 2\n0 Clip\n1 XyzToLuma\nrefused 5 at 1\n");
}

#[test]
fn merged_and_joined() {
    let matrix = |m: [f32; 9]| [&[3][..], &m.map(f32::to_le_bytes).concat()].concat();
    let exchange = matrix([0.0, 1.0, 0.0, 1.0, 0.0, 0.0, 0.0, 0.0, 1.0]);
    let twice = matrix([2.0, 0.0, 0.0, 0.0, 1.0, 0.0, 0.0, 0.0, 1.0]);
    let one = |op: &[u8]| read(&[b"CTP\x01\x00\x03\x01", op].concat());
    let joined = one(&exchange).join(&one(&twice)).unwrap();
    assert_eq!(joined.to_string(), "start 3 ops 2\n0 Matrix\n1 Matrix\nend 3\n");
    let wanted = matrix([0.0, 2.0, 0.0, 1.0, 0.0, 0.0, 0.0, 0.0, 1.0]);
    assert_eq!(joined.merge().unwrap().to_block(1).unwrap()[7..], wanted);
    let joined = read(EXAMPLE).join(&read(EXAMPLE)).unwrap();
    assert_eq!((joined.input_channels(), joined.output_channels(), joined.check()), (1, 1, Ok(1)));
}
