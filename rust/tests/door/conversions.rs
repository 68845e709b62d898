//! Numbers, bytes, codes and single steps: the readings of 01 and 02.

use crate::common::*;
use rindsaddle::*;

#[test]
fn numbers() {
    assert!(mul_add(f32::INFINITY, 0.0, 1.0).is_nan());
    assert_eq!((cbrt(27.0), cbrt(-8.0), cbrt(-0.0).to_bits()), (3.0, -2.0, 1 << 31));
    assert_eq!(cbrt(f32::from_bits(0x3f80_000d)).to_bits(), 0x3f80_0004);
    let profile = |name: &[u8]| [&[0; 16], name].concat();
    assert_eq!(icc_channels(&[]), 3);
    assert_eq!([&b"GRAY"[..], b"CMYK", b"RGB ", b"GRA"].map(|name| icc_channels(&profile(name))), [1, 4, 3, 3]);
}

#[test]
fn codes() {
    assert!((0..1024).all(|one| code(level(one)) == one));
    assert_eq!([0, 1, 41, 42, 512, 1023, 1024, 65535].map(level), [0, 5, 203, 208, 14057, 65535, 0, 0]);
    assert_eq!(code(57), 11);
    let mut levels = [7.0; 2];
    assert_eq!(code_levels(&[0, 1023], &mut levels), Ok(()));
    assert_eq!(levels, [0.0, 1.0]);
}

#[test]
fn bytes() {
    let (mut one, mut two, mut three) = ([0; 2], [0; 2], [0; 2]);
    ycbcr_bytes_to_rgb(4, [&[128, 3], &[0, 255], &[255, 128]], [&mut one, &mut two, &mut three]).unwrap();
    assert_eq!([one, two, three], [[200, 255], [0, 255], [0, 23]]);
    rgb_bytes_to_ycbcr(2, [&[255, 255], &[0, 255], &[0, 255]], [&mut one, &mut two, &mut three]).unwrap();
    assert_eq!([one, two, three], [[85, 128], [76, 255], [255, 128]]);
    let mut wide = [0; 4];
    widen(&[0, 2], &mut wide).unwrap();
    assert_eq!(wide, [0, 1, 2, 2]);
    narrow(&[0, 1, 5], &mut one).unwrap();
    assert_eq!(one, [1, 5]);
    let mut shown = [7; 5];
    screen_bytes(&[8_421_504.0 / 4_294_967_296.0, 0.5, 1.5, f32::NEG_INFINITY, f32::NAN], &mut shown).unwrap();
    assert_eq!(shown, [0, 128, 255, 0, 0]);
}

/// A whole line is what widening both and then the conversion give.
#[test]
fn line() {
    let (cb, y, cr) = ([0, 200], [10, 90, 170], [255, 40]);
    let (mut wide_cb, mut wide_cr) = ([0; 3], [0; 3]);
    widen(&cb, &mut wide_cb).unwrap();
    widen(&cr, &mut wide_cr).unwrap();
    let (mut by_parts, mut whole) = ([[0; 3]; 3], [[1; 3]; 3]);
    let [r, g, b] = &mut by_parts;
    ycbcr_bytes_to_rgb(3, [&wide_cb, &y, &wide_cr], [r, g, b]).unwrap();
    let [r, g, b] = &mut whole;
    line_to_rgb(3, [&cb, &y, &cr], [r, g, b]).unwrap();
    assert_eq!(by_parts, whole);
}

#[test]
fn floats() {
    let dark = -128.0 / 255.0;
    let mut lent = [vec![1.0, 0.0], vec![dark, dark], vec![0.0, 1.0]];
    ycbcr_to_rgb(1, lend(&mut lent)).unwrap();
    assert_eq!((lent[0][1], lent[2][0]), (1.402, 1.772));
    let mut lent = [vec![1.0, 0.0], vec![dark, dark], vec![0.0, 1.0]];
    ycbcr_to_rgb(4, lend(&mut lent)).unwrap();
    assert_eq!((lent[0][1], lent[2][0]), (1.5748, 1.8556));
    assert_eq!([lent[1][0].to_bits(), lent[1][1].to_bits()], [0xbe3f_d1ee, 0xbeef_adfc]);
}

#[test]
fn single_steps() {
    let cases = [(0.0, 255.0, [27.0, 1.0, 27.0]), (0.0, 127.5, [54.0, 2.0, 54.0]), (8.0, 255.0, [9.0, 7.0, 9.0])];
    for (bias, intensity, [l, m, s]) in cases {
        let mut lent = [vec![1.0], vec![2.0], vec![3.0]];
        steps::xyb_to_mixed_lms(&[bias; 3], intensity, lend(&mut lent)).unwrap();
        assert_eq!(lent, [[l], [m], [s]]);
    }
    let mut lent = [vec![0.5], vec![7.0], vec![7.0]];
    steps::luma_to_xyz([0.5, 0.25], lend(&mut lent)).unwrap();
    assert_eq!(lent, [[1.0], [0.5], [0.5]]);
    let [a, b, c] = lend(&mut lent);
    steps::xyz_to_luma(a, b, c).unwrap();
    assert_eq!(lent, [[0.5], [0.5], [0.5]]);
    let mut lent = [vec![1.5], vec![-2.0], vec![f32::NAN]];
    steps::clip(1, lend(&mut lent)).unwrap();
    assert_eq!((lent[0][0], lent[1][0]), (1.0, -2.0));
    steps::clip(3, lend(&mut lent)).unwrap();
    assert_eq!((lent[1][0], lent[2][0].is_nan()), (0.0, true));
    let [a, b, c] = lend(&mut lent);
    assert_eq!(steps::unchanged(3, [a, b, c]), Ok(()));
    assert_eq!([0, 1, 2, 3, 200].map(|width| steps::count(width, [a, b, c])), [0, 0, 0, 1, 1]);
}
