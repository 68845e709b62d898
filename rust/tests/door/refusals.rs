//! Each refusal, reached through the API: its number, its position, its words, and that nothing was changed.

use crate::common::*;
use rindsaddle::*;

fn plan(source: impl Into<Encoding>, target: impl Into<Encoding>) -> Refusal {
    Plan::new(source, target, &Settings::default()).expect_err("a refusal")
}

fn at(x: i32, y: i32) -> EnumColourEncoding {
    EnumColourEncoding { white_point: WhitePoint::Custom(Customxy { x, y }), ..rgb() }
}

fn rgb() -> EnumColourEncoding {
    side(ColourSpace::Rgb, TransferFunction::Linear)
}

#[test]
fn planning() {
    assert_eq!(plan(Encoding::IccProfile, rgb()), Refusal::Icc);
    assert_eq!(plan(rgb(), Encoding::IccProfile), Refusal::Icc);
    assert_eq!(plan(at(2_097_152, 0), rgb()), Refusal::OutOfRange);
    assert_eq!(plan(rgb(), at(0, -2_097_153)), Refusal::OutOfRange);
    for g in [16_777_216, u32::MAX] {
        assert_eq!(plan(side(ColourSpace::Rgb, TransferFunction::Gamma { g, inverted: true }), rgb()), Refusal::OutOfRange);
    }
    assert_eq!(plan(rgb(), side(ColourSpace::Rgb, TransferFunction::Unknown)), Refusal::Retired);
    assert_eq!(plan(rgb(), EnumColourEncoding::xyb(RenderingIntent::Relative)), Refusal::Unsupported);
    assert_eq!(plan(side(ColourSpace::Unknown, TransferFunction::Linear), rgb()), Refusal::Unsupported);
    let settings = Settings { intensity_target: f32::NAN, ..Settings::default() };
    assert_eq!(Plan::new(EnumColourEncoding::xyb(RenderingIntent::Relative), rgb(), &settings).unwrap_err(), Refusal::BadOp);
}

#[test]
fn reading() {
    let refused = |block: &[u8]| Plan::from_block(block).expect_err("a refusal");
    assert_eq!(refused(b""), Refusal::Short);
    assert_eq!(refused(&EXAMPLE[..17]), Refusal::Short);
    assert_eq!(refused(b"CTQ\x01\x00\x01\x00"), Refusal::WrongMark);
    assert_eq!(refused(b"CTP\x03\x00\x01\x00"), Refusal::WrongMark);
    assert_eq!(refused(b"CTP\x01\x00\x01\x01\x0a"), Refusal::BadOp);
    assert_eq!(refused(b"CTP\x02\x00\x01\x01\x03\x09"), Refusal::BadOp);
    assert_eq!(refused(b"CTP\x01\x00\x02\x00"), Refusal::Malformed);
    assert_eq!(refused(b"CTP\x01\x00\x01\x21"), Refusal::Malformed);
}

#[test]
fn writing() {
    let plan = read(EXAMPLE);
    assert_eq!(plan.to_block(3).unwrap_err(), Refusal::WrongMark);
    assert_eq!(read(&retired()).to_block(1).unwrap_err(), Refusal::Retired);
    let mut short = [0xa5; 17];
    assert_eq!(plan.write_block(1, &mut short).unwrap_err(), Refusal::NoRoom);
    assert_eq!(short, [0xa5; 17]);
}

#[test]
fn joining() {
    let clips = [&b"CTP\x01\x00\x01\x20"[..], &[9; 32]].concat();
    let (example, misfit) = (read(EXAMPLE), read(MISFIT));
    assert_eq!(read(&clips).join(&example).unwrap_err(), Refusal::Malformed);
    assert_eq!(example.join(&read(b"CTP\x01\x00\x03\x00")).unwrap_err(), Refusal::Misfit { position: 3 });
    assert_eq!(example.join(&misfit).unwrap_err(), Refusal::Misfit { position: 4 });
    assert_eq!(misfit.join(&example).unwrap_err(), Refusal::Misfit { position: 1 });
    assert_eq!(misfit.check().unwrap_err(), Refusal::Misfit { position: 1 });
}

/// A run, on one thread and on more, and a strip that are refused change no sample.
#[test]
fn running() {
    let to_srgb = Plan::new(rgb(), side(ColourSpace::Rgb, TransferFunction::Srgb), &Settings::default()).unwrap();
    let cases =
        [(read(EXAMPLE), 4, Refusal::Unequal), (read(MISFIT), 5, Refusal::Misfit { position: 1 }), (to_srgb, 5, Refusal::NotCarried { position: 1 })];
    for (plan, length, refusal) in cases {
        let mut lent = picture(1, 5);
        lent[2].truncate(length);
        let before = bits(&lent);
        assert_eq!(plan.run(lend(&mut lent)), Err(refusal));
        for threads in 0..5 {
            assert_eq!(plan.run_on(threads, lend(&mut lent)), Err(refusal));
        }
        assert_eq!(bits(&lent), before);
        let opened = Strips::new().open(&plan);
        assert_eq!(opened, if refusal == Refusal::Unequal { Ok(1) } else { Err(refusal) });
    }
}

#[test]
fn strips() {
    let mut strips = Strips::new();
    let mut lent = picture(2, 3);
    let before = bits(&lent);
    assert_eq!(strips.strip(lend(&mut lent)), Err(Refusal::NotOpen));
    assert_eq!(strips.close(), Err(Refusal::NotOpen));
    strips.open(&read(EXAMPLE)).unwrap();
    let [a, b, c] = lend(&mut lent);
    assert_eq!(strips.strip([a, b, &mut c[..2]]), Err(Refusal::Unequal));
    assert_eq!(bits(&lent), before);
    assert_eq!(strips.close(), Ok(Ran { width: 1, bad: 0 }));
    assert_eq!(strips.close(), Err(Refusal::NotOpen));
}

#[test]
fn conversions() {
    let mut floats = picture(3, 2);
    let before = bits(&floats);
    assert_eq!(ycbcr_to_rgb(5, lend(&mut floats)), Err(Refusal::Firmware));
    let [a, b, c] = lend(&mut floats);
    assert_eq!(ycbcr_to_rgb(4, [a, b, &mut c[..1]]), Err(Refusal::Unequal));
    assert_eq!(bits(&floats), before);
    let (mut r, mut g, mut b) = ([0xa5; 2], [0xa5; 2], [0xa5; 2]);
    let lent: [&[u8]; 3] = [&[1, 2], &[3, 4], &[5]];
    assert_eq!(ycbcr_bytes_to_rgb(0, lent, [&mut r, &mut g, &mut b]), Err(Refusal::Firmware));
    assert_eq!(ycbcr_bytes_to_rgb(1, lent, [&mut r, &mut g, &mut b]), Err(Refusal::Unequal));
    assert_eq!(rgb_bytes_to_ycbcr(4, lent, [&mut r, &mut g, &mut b]), Err(Refusal::Unequal));
    assert_eq!(line_to_rgb(2, lent, [&mut r, &mut g, &mut b]), Err(Refusal::Unequal));
    assert_eq!(widen(&[1], &mut r[..0]), Err(Refusal::Unequal));
    assert_eq!(narrow(&[1, 2, 3, 4, 5], &mut r), Err(Refusal::Unequal));
    assert_eq!(screen_bytes(&[0.5], &mut r), Err(Refusal::Unequal));
    assert_eq!([r, g, b], [[0xa5; 2]; 3]);
    let mut levels = [7.0; 2];
    assert_eq!(code_levels(&[1023, 1024], &mut levels), Err(Refusal::Code));
    assert_eq!(code_levels(&[1024], &mut levels), Err(Refusal::Unequal));
    assert_eq!(levels, [7.0; 2]);
}

#[test]
fn steps_of_unequal_channels() {
    let mut lent = picture(4, 2);
    lent[1].pop();
    let before = bits(&lent);
    assert_eq!(steps::xyb_to_mixed_lms(&[0.0; 3], 255.0, lend(&mut lent)), Err(Refusal::Unequal));
    assert_eq!(steps::matrix(&[2.0; 9], lend(&mut lent)), Err(Refusal::Unequal));
    assert_eq!(steps::luma_to_xyz([0.5, 0.25], lend(&mut lent)), Err(Refusal::Unequal));
    assert_eq!(steps::clip(3, lend(&mut lent)), Err(Refusal::Unequal));
    let [a, b, c] = lend(&mut lent);
    assert_eq!(steps::unchanged(3, [a, b, c]), Err(Refusal::Unequal));
    assert_eq!(steps::xyz_to_luma(a, b, c), Err(Refusal::Unequal));
    assert_eq!(bits(&lent), before);
}

#[test]
fn words() {
    let refusal: &dyn std::error::Error = &Refusal::Misfit { position: 7 };
    assert_eq!(refusal.to_string(), "refused 5 at 7: the op needs another width");
    assert_eq!((Refusal::Misfit { position: 7 }.number(), Refusal::Misfit { position: 7 }.position()), (5, 7));
    assert_eq!(Refusal::Retired.to_string(), "refused 15: the Unknown curve is retired");
    assert_eq!((Refusal::Retired.number(), Refusal::Retired.position()), (15, 0));
}
