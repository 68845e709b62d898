//! From jxl-color 0.11.0 to this crate. There is nothing to call here.
//!
//! | jxl-color | rindsaddle |
//! |---|---|
//! | `ColorEncodingWithProfile::new(encoding)` | the [`EnumColourEncoding`](crate::EnumColourEncoding) itself, which becomes an [`Encoding`](crate::Encoding) |
//! | `ColorEncodingWithProfile::with_icc(bytes)` | [`Encoding::IccProfile`](crate::Encoding), without its bytes; plans refuse it by 1 |
//! | `EnumColourEncoding`, `ColourSpace`, `WhitePoint`, `Primaries`, `TransferFunction`, `RenderingIntent`, `Customxy` | the same names |
//! | `OpsinInverseMatrix`, `ToneMapping`, `set_detect_peak`, `from_pq` | the fields of [`Settings`](crate::Settings) |
//! | `ColorTransform::new(&from, &to, &oim, &tone_mapping, &cms)`, `builder().build(..)` | [`Plan::new(from, to, &settings)`](crate::Plan::new) |
//! | `Error::UnsupportedColorEncoding` | [`Refusal::Unsupported`](crate::Refusal) |
//! | `input_channels`, `is_noop` | the same names |
//! | `output_channels` | the same name, 0 where an op finds another width than it needs; [`Plan::check`](crate::Plan::check) says which |
//! | `run(&mut [a, b, c])`, the width | [`Plan::run([a, b, c])`](crate::Plan::run), the width and the bad samples |
//! | `run_with_threads` | [`Plan::run_on`](crate::Plan::run_on) |
//! | `format!("{transform:?}")` | `plan.to_string()`, the names of the ops |
//! | `ycbcr_to_rgb([cb, y, cr])` | [`ycbcr_to_rgb(firmware, [cb, y, cr])`](crate::ycbcr_to_rgb), firmware 1 for the same weights |
//! | `f32::mul_add`, `f32::cbrt` inside it | [`mul_add`](crate::mul_add), [`cbrt`](crate::cbrt), one answer on every machine |
//! | a panic, a truncation, or stale samples | a [`Refusal`](crate::Refusal), and nothing is changed |
//! | none | plan blocks, [`merge`](crate::Plan::merge), [`join`](crate::Plan::join), [`Strips`](crate::Strips), bytes, half-width chroma, ten-bit codes |
//!
//! Curves but Linear, HLG's OOTF, tone and gamut mapping are planned here as there, and not carried out: a run refuses them by 6. Where both answer, plans and
//! samples are equal bit for bit, all NaNs being one; `docs/DIFFERENCES.md` of the repository has what differs, and `doors/differential` compares.
