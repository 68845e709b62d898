//! Stands in for `convert/tone_map.rs`, which is not given. No plan calls it, and no run that is
//! carried.

use super::HdrParams;

pub fn tone_map(
    _r: &mut [f32],
    _g: &mut [f32],
    _b: &mut [f32],
    _hdr_params: &HdrParams,
    _target_display_luminance: f32,
    _detect_peak: bool,
) {
    crate::cms::door::called("tone_map");
}

pub fn tone_map_luma(
    _y: &mut [f32],
    _hdr_params: &HdrParams,
    _target_display_luminance: f32,
    _detect_peak: bool,
) {
    crate::cms::door::called("tone_map_luma");
}
