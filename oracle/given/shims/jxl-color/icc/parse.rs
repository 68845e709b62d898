//! Stands in for `icc/parse.rs`, which is not given: ICC profiles are left out of the port. Where the door notes what
//! is called, a profile is one that no enum encoding stands for, of an Rgb picture.

use super::IccHeader;
use crate::cms::door::called;
use crate::{ColourSpace, EnumColourEncoding, Error, RenderingIntent, Result};

pub struct IccProfile {
    pub header: IccHeader,
}

impl IccProfile {
    pub fn color_space(&self) -> ColourSpace {
        ColourSpace::Rgb
    }

    pub fn is_cmyk(&self) -> bool {
        false
    }
}

pub fn icc_tf() {
    unimplemented!("ICC profiles are left out");
}

pub fn parse_icc(_profile: &[u8]) -> Result<EnumColourEncoding> {
    called("parse_icc");
    Err(Error::UnsupportedIccProfile)
}

pub fn parse_icc_raw(_profile: &[u8]) -> Result<IccProfile> {
    called("parse_icc_raw");
    Ok(IccProfile {
        header: IccHeader {
            color_space: *b"RGB ",
            rendering_intent: RenderingIntent::Relative,
        },
    })
}
