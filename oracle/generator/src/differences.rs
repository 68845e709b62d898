//! The facts of docs/DIFFERENCES.md: what the given Rust does where we answer otherwise. Each case is run.

use crate::encodings::{DEFAULT_OPSIN, Settings};
use crate::ops::{NAMES, Op, list};
use given::door::{curve, noted, word};
use given::{
    ColorEncodingWithProfile, ColorTransform, ColourSpace, Customxy, EnumColourEncoding, NullCms,
    Primaries, RenderingIntent, ToneMapping, TransferFunction, WhitePoint, ycbcr_to_rgb,
};
use std::panic::{AssertUnwindSafe, catch_unwind};

pub fn print() {
    std::panic::set_hook(Box::new(|_| {}));
    plans();
    runs();
    conversions();
}

/// A line of what f answers, or how it panics; with what it called that is not in the given text.
fn show(case: &str, f: impl FnOnce() -> String) {
    let (answer, called) = noted(|| catch_unwind(AssertUnwindSafe(f)));
    let answer = answer.unwrap_or_else(|panic| {
        let said = panic
            .downcast_ref::<String>()
            .map(String::as_str)
            .or_else(|| panic.downcast_ref::<&str>().copied());
        format!("panics: {}", said.unwrap_or("no message"))
    });
    println!("{case}: {answer}");
    if !called.is_empty() {
        println!("    calls {}", called.join(", "));
    }
}

pub fn side(
    colour_space: ColourSpace,
    tf: TransferFunction,
    intent: RenderingIntent,
) -> EnumColourEncoding {
    EnumColourEncoding {
        colour_space,
        white_point: WhitePoint::D65,
        primaries: Primaries::Srgb,
        tf,
        rendering_intent: intent,
    }
}

pub fn settings(intensity_target: f32, from_pq: bool) -> Settings {
    Settings {
        opsin: DEFAULT_OPSIN,
        tone: ToneMapping {
            intensity_target,
            min_nits: 0.0,
        },
        detect_peak: false,
        from_pq,
    }
}

fn plan_between(
    from: &ColorEncodingWithProfile,
    to: &ColorEncodingWithProfile,
    s: &Settings,
) -> ColorTransform {
    let mut builder = ColorTransform::builder();
    builder.set_detect_peak(s.detect_peak).from_pq(s.from_pq);
    builder
        .build(from, to, &s.opsin, &s.tone, &NullCms)
        .expect("a plan")
}

pub fn plan(from: EnumColourEncoding, to: EnumColourEncoding, s: Settings) -> ColorTransform {
    let side = ColorEncodingWithProfile::new;
    plan_between(&side(from), &side(to), &s)
}

/// The start width and the names of the ops.
fn told(plan: &ColorTransform) -> String {
    let print = format!("{plan:?}");
    let kinds = kinds(plan).into_iter().map(|kind| NAMES[kind as usize]);
    let kinds: Vec<_> = kinds.collect();
    assert!(kinds.iter().all(|name| print.contains(name)));
    format!("start {}, [{}]", plan.input_channels(), kinds.join(", "))
}

/// The kinds of the ops, from the words of each.
fn kinds(plan: &ColorTransform) -> Vec<u32> {
    let words = plan.words();
    let mut at = 1;
    let mut kinds = Vec::new();
    while at < words.len() {
        kinds.push(words[at]);
        at += [5, 3, 1, 10, 9, 6, 8, 8, 5, 1][words[at] as usize];
    }
    kinds
}

/// A run on lent channels: the width, and every channel after it.
fn ran(plan: &ColorTransform, channels: &[&[f32]]) -> String {
    let mut owned: Vec<Vec<f32>> = channels.iter().map(|c| c.to_vec()).collect();
    let mut lent: Vec<&mut [f32]> = owned.iter_mut().map(|c| &mut c[..]).collect();
    let width = plan.run(&mut lent).expect("a run");
    format!("width {width}, {owned:?}")
}

fn plans() {
    use ColourSpace::{Grey, Rgb};
    use RenderingIntent::{Perceptual, Relative};
    let icc = |bytes: &[u8]| ColorEncodingWithProfile::with_icc(bytes).expect("a profile");
    let s = || settings(255.0, false);
    println!("plans");
    show("two equal ICC profiles", || {
        told(&plan_between(&icc(&[1; 32]), &icc(&[1; 32]), &s()))
    });
    show("two other ICC profiles", || {
        told(&plan_between(&icc(&[1; 32]), &icc(&[2; 32]), &s()))
    });
    let rgb = || side(Rgb, TransferFunction::Linear, Relative);
    let far = WhitePoint::Custom(Customxy {
        x: 2_097_152,
        y: 329_000,
    });
    show("a white point at 2,097,152 millionths", || {
        told(&plan(
            EnumColourEncoding {
                white_point: far,
                ..rgb()
            },
            rgb(),
            s(),
        ))
    });
    show("a Gamma of g 16,777,216", || {
        told(&plan(side(Rgb, curve(0, 16_777_216), Relative), rgb(), s()))
    });
    let unknown = || side(Rgb, TransferFunction::Unknown, Relative);
    show("Rgb Unknown to the same", || {
        told(&plan(unknown(), unknown(), s()))
    });
    show("Rgb Unknown to Rgb Linear", || {
        told(&plan(unknown(), rgb(), s()))
    });
    show("Rgb Linear to Rgb Unknown", || {
        told(&plan(rgb(), unknown(), s()))
    });
    let grey_hlg = || side(Grey, TransferFunction::Hlg, Relative);
    let from_hlg = plan(grey_hlg(), rgb(), s());
    show("Grey Hlg to Rgb", || told(&from_hlg));
    show("    run on one lent channel", || ran(&from_hlg, &[&[0.5]]));
    show("    run on three", || {
        ran(&from_hlg, &[&[0.5], &[7.0], &[8.0]])
    });
    let linear = side(Grey, TransferFunction::Linear, Perceptual);
    let perceptual = plan(linear, side(Rgb, TransferFunction::Linear, Perceptual), s());
    show("Grey Linear Perceptual to Rgb", || told(&perceptual));
    show("    run on three lent channels", || {
        ran(&perceptual, &[&[0.5], &[7.0], &[8.0]])
    });
    let to_hlg = plan(rgb(), grey_hlg(), s());
    show("Rgb to Grey Hlg", || told(&to_hlg));
    show("    run on three lent channels", || {
        ran(&to_hlg, &[&[0.5], &[0.5], &[0.5]])
    });
    let from_pq = plan(
        side(Rgb, TransferFunction::Pq, Relative),
        grey_hlg(),
        settings(4000.0, true),
    );
    show("Rgb Pq to Grey Hlg, from_pq, intensity 4000", || {
        told(&from_pq)
    });
    show("    run on three lent channels", || {
        ran(&from_pq, &[&[0.5], &[0.5], &[0.5]])
    });
}

/// An op whose fields are all floats.
pub fn op(kind: u32, floats: &[f32]) -> Op {
    std::iter::once(kind)
        .chain(floats.iter().map(|&x| word(x)))
        .collect()
}

fn runs() {
    let matrix = || op(3, &[2.0, 0.0, 0.0, 0.0, 2.0, 0.0, 0.0, 0.0, 2.0]);
    let luma = || op(1, &[0.5, 0.25]);
    let to_luma = || op(2, &[]);
    let clip = || op(9, &[]);
    let xyb = || op(0, &[0.0, 0.0, 0.0, 255.0]);
    let unknown = || [&[4, 3, 0, 1][..], &[0; 5]].concat();
    let tone_luma = || [&op(7, &[1.0, 1.0, 1.0, 255.0, 0.0, 255.0])[..], &[0]].concat();
    let two: [&[f32]; 3] = [&[2.0, 2.0], &[3.0, 3.0], &[4.0, 4.0]];
    let short: [&[f32]; 3] = [&[2.0, 2.0], &[3.0, 3.0], &[4.0]];
    let alone: [&[f32]; 3] = [&[2.0, 2.0], &[3.0], &[4.0]];
    let row = |case: &str, start: usize, ops: &[Op], channels: &[&[f32]]| {
        show(case, || ran(&list(start, ops), channels));
    };
    println!("runs");
    row("start 1, Matrix, three lent channels", 1, &[matrix()], &two);
    row("the same, one lent channel", 1, &[matrix()], &two[..1]);
    row("start 3, Clip, one lent channel", 3, &[clip()], &two[..1]);
    row("start 1, Clip, no lent channel", 1, &[clip()], &[]);
    let four: [&[f32]; 4] = [&[2.0], &[3.0], &[4.0], &[5.0]];
    row("start 3, Matrix, four lent channels", 3, &[matrix()], &four);
    row("start 3, ToneMapLumaRec2408", 3, &[tone_luma()], &two);
    row("start 3, LumaToXyz", 3, &[luma()], &two);
    row("lengths 2, 2, 1: Matrix", 3, &[matrix()], &short);
    row("lengths 2, 2, 1: LumaToXyz", 1, &[luma()], &short);
    row("lengths 2, 2, 1: XybToMixedLms", 3, &[xyb()], &short);
    row("lengths 2, 2, 1: XyzToLuma", 3, &[to_luma()], &short);
    row("lengths 2, 1, 1: XyzToLuma", 3, &[to_luma()], &alone);
    row("lengths 2, 2, 1: Clip", 3, &[clip()], &short);
    row(
        "lengths 2, 2, 1: TransferFunction Unknown",
        3,
        &[unknown()],
        &short,
    );
    row("lengths 2, 2, 1: the empty list", 3, &[], &short);
    row("start 2, Clip", 2, &[clip()], &two);
    row("33 times Clip", 3, &vec![clip(); 33], &two);
}

fn conversions() {
    println!("conversions");
    let convert = |mut channels: [Vec<f32>; 3]| {
        let [cb, y, cr] = &mut channels;
        ycbcr_to_rgb([cb, y, cr]);
        format!("{channels:?}")
    };
    show("ycbcr_to_rgb on lengths 2, 2, 1", || {
        convert([vec![0.0; 2], vec![0.5; 2], vec![0.0; 1]])
    });
}
