//! Stands in for the crate `jxl-image`: the encoding definitions, which are not in the given text,
//! after 01, "Encodings and settings".

pub mod color {
    #[derive(Debug, Clone, PartialEq)]
    pub enum ColourEncoding {
        Enum(EnumColourEncoding),
        IccProfile(ColourSpace),
    }

    impl ColourEncoding {
        pub fn want_icc(&self) -> bool {
            matches!(self, Self::IccProfile(_))
        }
    }

    #[derive(Debug, Clone, PartialEq)]
    pub struct EnumColourEncoding {
        pub colour_space: ColourSpace,
        pub white_point: WhitePoint,
        pub primaries: Primaries,
        pub tf: TransferFunction,
        pub rendering_intent: RenderingIntent,
    }

    impl EnumColourEncoding {
        /// "leaving Rgb, D65, Srgb primaries, Linear" (01, Planning).
        pub fn srgb_linear(rendering_intent: RenderingIntent) -> Self {
            Self {
                colour_space: ColourSpace::Rgb,
                white_point: WhitePoint::D65,
                primaries: Primaries::Srgb,
                tf: TransferFunction::Linear,
                rendering_intent,
            }
        }

        /// Of an Xyb source nothing but the colour space and the intent is looked at.
        pub fn xyb(rendering_intent: RenderingIntent) -> Self {
            Self {
                colour_space: ColourSpace::Xyb,
                ..Self::srgb_linear(rendering_intent)
            }
        }

        /// "HDR means Pq or Hlg."
        pub fn is_hdr(&self) -> bool {
            matches!(self.tf, TransferFunction::Pq | TransferFunction::Hlg)
        }
    }

    #[derive(Debug, Clone, Copy, PartialEq, Eq)]
    pub enum ColourSpace {
        Rgb,
        Grey,
        Xyb,
        Unknown,
    }

    #[derive(Debug, Clone, Copy, PartialEq, Eq)]
    pub enum WhitePoint {
        D65,
        E,
        Dci,
        Custom(Customxy),
    }

    #[derive(Debug, Clone, Copy, PartialEq, Eq)]
    pub enum Primaries {
        Srgb,
        Bt2100,
        P3,
        Custom {
            red: Customxy,
            green: Customxy,
            blue: Customxy,
        },
    }

    #[derive(Debug, Clone, Copy, PartialEq, Eq)]
    pub struct Customxy {
        pub x: i32,
        pub y: i32,
    }

    impl Customxy {
        /// "its float is that number divided by 1,000,000"
        pub fn as_float(self) -> [f32; 2] {
            [self.x as f32 / 1_000_000.0, self.y as f32 / 1_000_000.0]
        }
    }

    #[derive(Debug, Clone, Copy, PartialEq, Eq)]
    pub enum TransferFunction {
        Gamma { g: u32, inverted: bool },
        Bt709,
        Unknown,
        Linear,
        Srgb,
        Pq,
        Dci,
        Hlg,
    }

    #[derive(Debug, Clone, Copy, PartialEq, Eq)]
    pub enum RenderingIntent {
        Perceptual,
        Relative,
        Saturation,
        Absolute,
    }

    #[derive(Debug, Clone)]
    pub struct OpsinInverseMatrix {
        pub inv_mat: [[f32; 3]; 3],
        pub opsin_bias: [f32; 3],
    }

    #[derive(Debug, Clone)]
    pub struct ToneMapping {
        pub intensity_target: f32,
        pub min_nits: f32,
    }
}
