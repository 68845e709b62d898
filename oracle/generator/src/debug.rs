//! A plan as words. 01 has the Rust's plans read from their `Debug` print; the door reads the bits,
//! and here the print is made again from them and compared.

use crate::lists;
use crate::ops::Op;
use given::ColorTransform;
use given::door::curve;

struct Words<'a>(std::slice::Iter<'a, u32>);

impl Words<'_> {
    fn word(&mut self) -> u32 {
        *self.0.next().expect("a word of the op")
    }

    fn float(&mut self) -> f32 {
        f32::from_bits(self.word())
    }

    fn floats<const N: usize>(&mut self) -> [f32; N] {
        std::array::from_fn(|_| self.float())
    }

    fn flag(&mut self) -> bool {
        self.word() == 1
    }

    fn params(&mut self) -> String {
        let (luminances, intensity, min_nits) = (self.floats::<3>(), self.float(), self.float());
        format!(
            "HdrParams {{ luminances: {luminances:?}, intensity_target: {intensity:?}, \
             min_nits: {min_nits:?} }}"
        )
    }

    fn tone_map(&mut self, name: &str) -> String {
        format!(
            "{name} {{ hdr_params: {}, target_display_luminance: {:?}, detect_peak: {:?} }}",
            self.params(),
            self.float(),
            self.flag()
        )
    }

    fn op(&mut self) -> String {
        match self.word() {
            0 => format!(
                "XybToMixedLms {{ opsin_bias: {:?}, intensity_target: {:?} }}",
                self.floats::<3>(),
                self.float()
            ),
            1 => format!("LumaToXyz {{ illuminant: {:?} }}", self.floats::<2>()),
            2 => "XyzToLuma".to_string(),
            3 => format!("Matrix({:?})", self.floats::<9>()),
            4 => {
                let tf = curve(self.word(), self.word());
                let inverse = self.flag();
                format!(
                    "TransferFunction {{ tf: {tf:?}, hdr_params: {}, inverse: {inverse:?} }}",
                    self.params()
                )
            }
            5 => format!("HlgInverseOotf({})", self.params()),
            6 => self.tone_map("ToneMapRec2408"),
            7 => self.tone_map("ToneMapLumaRec2408"),
            8 => format!(
                "GamutMap {{ luminances: {:?}, saturation_factor: {:?} }}",
                self.floats::<3>(),
                self.float()
            ),
            9 => "Clip".to_string(),
            kind => panic!("{kind} is no op's kind"),
        }
    }
}

/// The ops of a plan, as the door reads them and its print says.
pub fn ops(plan: &ColorTransform) -> Vec<Op> {
    let words = plan.words();
    let mut rest = Words(words.iter());
    let (mut ops, mut prints) = (Vec::new(), Vec::new());
    for _ in 0..rest.word() {
        let from = rest.0.as_slice();
        prints.push(rest.op());
        ops.push(from[..from.len() - rest.0.len()].to_vec());
    }
    assert!(rest.0.next().is_none(), "words after the last op");
    let start = plan.input_channels();
    let print = format!(
        "ColorTransform {{ begin_channels: {start}, ops: [{}] }}",
        prints.join(", ")
    );
    assert_eq!(print, format!("{plan:?}"));
    ops
}

/// The number of ops of a plan, its end width, and then each op. Where the width check passes, the Rust counts as many channels.
pub fn words(plan: &ColorTransform) -> Vec<u32> {
    let (start, ops) = (plan.input_channels(), ops(plan));
    if let Ok(width) = lists::checked(start as u8, &ops) {
        assert_eq!(width as usize, plan.output_channels());
    }
    lists::words(start, &ops)
}
