//! Stands in for `cms.rs`, which is not given: the names that `convert.rs` takes from it.
//! The given `lib.rs` exports all that is public here, so the door stands here too.

use crate::RenderingIntent;

#[path = "door.rs"]
pub mod door;

type Failure = Box<dyn std::error::Error + Send + Sync>;

pub trait ColorManagementSystem {
    fn prepare_transform(
        &self,
        from: &[u8],
        to: &[u8],
        intent: RenderingIntent,
    ) -> Result<Box<dyn PreparedTransform>, Failure>;
}

pub trait PreparedTransform: Send + Sync {
    fn num_input_channels(&self) -> usize;
    fn num_output_channels(&self) -> usize;
    fn transform(&self, channels: &mut [&mut [f32]]) -> Result<usize, Failure>;
}

/// No plan between enum encodings asks it anything.
pub struct NullCms;

impl ColorManagementSystem for NullCms {
    fn prepare_transform(
        &self,
        _from: &[u8],
        _to: &[u8],
        _intent: RenderingIntent,
    ) -> Result<Box<dyn PreparedTransform>, Failure> {
        unimplemented!("the CMS is left out");
    }
}
