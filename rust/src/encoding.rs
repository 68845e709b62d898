//! Encodings and settings, by the names that jxl-color has for them, and as the numbers by which they cross to the library.

/// An encoding: named values, or an ICC profile, which is refused by every plan.
#[derive(Clone, Copy, Debug, PartialEq, Eq)]
pub enum Encoding {
    /// Named values.
    Enum(EnumColourEncoding),
    /// An ICC profile, whose bytes are not looked at; [`icc_channels`](crate::icc_channels) counts its channels.
    IccProfile,
}

/// An encoding of named values.
#[derive(Clone, Copy, Debug, PartialEq, Eq)]
pub struct EnumColourEncoding {
    /// Which channels there are.
    pub colour_space: ColourSpace,
    /// The white point.
    pub white_point: WhitePoint,
    /// The primaries, which Grey and Xyb do not have.
    pub primaries: Primaries,
    /// The curve.
    pub tf: TransferFunction,
    /// How colours outside the target are treated.
    pub rendering_intent: RenderingIntent,
}

impl EnumColourEncoding {
    /// Rgb, D65, the primaries of sRGB, Linear.
    pub fn srgb_linear(rendering_intent: RenderingIntent) -> Self {
        EnumColourEncoding {
            colour_space: ColourSpace::Rgb,
            white_point: WhitePoint::D65,
            primaries: Primaries::Srgb,
            tf: TransferFunction::Linear,
            rendering_intent,
        }
    }

    /// Xyb, of which nothing but the intent is looked at.
    pub fn xyb(rendering_intent: RenderingIntent) -> Self {
        EnumColourEncoding { colour_space: ColourSpace::Xyb, ..Self::srgb_linear(rendering_intent) }
    }
}

impl From<EnumColourEncoding> for Encoding {
    fn from(named: EnumColourEncoding) -> Self {
        Encoding::Enum(named)
    }
}

/// A colour space.
#[derive(Clone, Copy, Debug, PartialEq, Eq)]
pub enum ColourSpace {
    /// Red, green, blue.
    Rgb,
    /// One channel.
    Grey,
    /// JPEG XL's own; plans go from it, and not to it.
    Xyb,
    /// Not known; no plan goes from it or to it.
    Unknown,
}

/// A white point. Values are compared by name: Custom at the coordinates of D65 is not D65.
#[derive(Clone, Copy, Debug, PartialEq, Eq)]
pub enum WhitePoint {
    /// CIE D65.
    D65,
    /// Equal energy.
    E,
    /// DCI-P3's.
    Dci,
    /// Another.
    Custom(Customxy),
}

/// Primaries, compared by name as white points are.
#[derive(Clone, Copy, Debug, PartialEq, Eq)]
pub enum Primaries {
    /// Those of sRGB.
    Srgb,
    /// Those of BT.2100.
    Bt2100,
    /// Those of DCI-P3.
    P3,
    /// Others.
    Custom {
        /// Red.
        red: Customxy,
        /// Green.
        green: Customxy,
        /// Blue.
        blue: Customxy,
    },
}

/// Coordinates in millionths, each -2,097,152 to 2,097,151; others are refused by 2.
#[derive(Clone, Copy, Debug, PartialEq, Eq)]
pub struct Customxy {
    /// x.
    pub x: i32,
    /// y.
    pub y: i32,
}

/// A curve.
#[derive(Clone, Copy, Debug, PartialEq, Eq)]
pub enum TransferFunction {
    /// A power.
    Gamma {
        /// The exponent in ten-millionths, 0 to 16,777,215; others are refused by 2.
        g: u32,
        /// Whether the exponent is the inverse of that.
        inverted: bool,
    },
    /// BT.709's.
    Bt709,
    /// Not known: retired, and refused by 15 but on an Xyb side.
    Unknown,
    /// None.
    Linear,
    /// sRGB's.
    Srgb,
    /// PQ.
    Pq,
    /// DCI's.
    Dci,
    /// HLG.
    Hlg,
}

/// A rendering intent.
#[derive(Clone, Copy, Debug, PartialEq, Eq)]
pub enum RenderingIntent {
    /// Perceptual.
    Perceptual,
    /// Relative.
    Relative,
    /// Saturation.
    Saturation,
    /// Absolute.
    Absolute,
}

/// What a plan is made with besides the two encodings. Any float may be infinite; one that is NaN and gets into an op is refused by 9.
#[derive(Clone, Copy, Debug, PartialEq)]
pub struct Settings {
    /// The inverse opsin matrix, by rows; it counts for an Xyb source.
    pub inv_mat: [[f32; 3]; 3],
    /// Its biases.
    pub opsin_bias: [f32; 3],
    /// The intensity of white in nits.
    pub intensity_target: f32,
    /// The intensity of black in nits.
    pub min_nits: f32,
    /// Whether a tone map looks for the peak.
    pub detect_peak: bool,
    /// Whether the source was PQ once.
    pub from_pq: bool,
}

/// What JPEG XL has where a picture names nothing: its own opsin matrix and biases, an intensity of 255.
impl Default for Settings {
    fn default() -> Self {
        Settings {
            inv_mat: [[11.031567, -9.866944, -0.164623], [-3.2541473, 4.4187703, -0.164623], [-3.6588513, 2.712923, 1.9459282]],
            opsin_bias: [-0.0037930733; 3],
            intensity_target: 255.0,
            min_nits: 0.0,
            detect_peak: false,
            from_pq: false,
        }
    }
}

impl Settings {
    pub(crate) fn floats(&self) -> [f32; 14] {
        let [[a, b, c], [d, e, f], [g, h, i]] = self.inv_mat;
        let [j, k, l] = self.opsin_bias;
        [a, b, c, d, e, f, g, h, i, j, k, l, self.intensity_target, self.min_nits]
    }
}

/// The number of an ICC profile among the colour spaces.
const ICC: i32 = 4;

impl Encoding {
    pub(crate) fn numbers(&self) -> [i32; 14] {
        let e = match self {
            Encoding::IccProfile => return [ICC, 0, 0, 0, 0, 0, 0, 0, 0, 0, 0, 0, 0, 0],
            Encoding::Enum(named) => named,
        };
        let (white, point) = e.white_point.numbers();
        let (primaries, [red, green, blue]) = e.primaries.numbers();
        let (curve, g) = e.tf.numbers();
        let (space, intent) = (e.colour_space as i32, e.rendering_intent as i32);
        [space, white, point.x, point.y, primaries, red.x, red.y, green.x, green.y, blue.x, blue.y, curve, g, intent]
    }
}

/// What stands where no point is read.
const NO_POINT: Customxy = Customxy { x: 0, y: 0 };

impl WhitePoint {
    fn numbers(self) -> (i32, Customxy) {
        match self {
            WhitePoint::D65 => (0, NO_POINT),
            WhitePoint::E => (1, NO_POINT),
            WhitePoint::Dci => (2, NO_POINT),
            WhitePoint::Custom(point) => (3, point),
        }
    }
}

impl Primaries {
    fn numbers(self) -> (i32, [Customxy; 3]) {
        match self {
            Primaries::Srgb => (0, [NO_POINT; 3]),
            Primaries::Bt2100 => (1, [NO_POINT; 3]),
            Primaries::P3 => (2, [NO_POINT; 3]),
            Primaries::Custom { red, green, blue } => (3, [red, green, blue]),
        }
    }
}

impl TransferFunction {
    /// A `g` that no i32 holds is out of range, as a negative one is.
    fn numbers(self) -> (i32, i32) {
        match self {
            TransferFunction::Gamma { g, inverted } => (inverted as i32, i32::try_from(g).unwrap_or(-1)),
            TransferFunction::Bt709 => (2, 0),
            TransferFunction::Unknown => (3, 0),
            TransferFunction::Linear => (4, 0),
            TransferFunction::Srgb => (5, 0),
            TransferFunction::Pq => (6, 0),
            TransferFunction::Dci => (7, 0),
            TransferFunction::Hlg => (8, 0),
        }
    }
}
