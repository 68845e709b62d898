//! A run by strips.

use crate::ffi::{self, Channels};
use crate::plan::{Plan, Ran};
use crate::refusal::Refusal;

/// A run that is opened with a plan, given strips of three channels, and closed.
///
/// Channels cut anywhere, all three at the same places, end with the samples and the width of a single run.
///
/// ```
/// let (plan, _) = rindsaddle::Plan::from_block(b"CTP\x01\x00\x03\x01\x09")?;
/// let mut strips = rindsaddle::Strips::new();
/// strips.open(&plan)?;
/// let mut sample = [[1.5], [-2.0], [f32::NAN]];
/// let [a, b, c] = &mut sample;
/// assert_eq!(strips.strip([a, b, c])?.bad, 1);
/// assert_eq!(strips.close()?.bad, 1);
/// assert_eq!((sample[0], sample[1]), ([1.0], [0.0]));
/// # Ok::<(), rindsaddle::Refusal>(())
/// ```
#[derive(Clone, Debug, Default)]
pub struct Strips {
    block: Vec<u8>,
    state: [u64; 2],
}

impl Strips {
    /// No run is open.
    pub fn new() -> Strips {
        Strips::default()
    }

    /// Opens a run, and answers the width that it will end at. What was open is closed first, whether this is refused or not. Refused by 5, 6.
    pub fn open(&mut self, plan: &Plan) -> Result<usize, Refusal> {
        self.block = plan.block().to_vec();
        Ran::of(ffi::open(&self.block, &mut self.state)).map(|ran| ran.width)
    }

    /// Applies the plan to a strip of any length, and counts its own bad samples. Refused by 11, 4; then the run stays as it was.
    pub fn strip(&mut self, channels: Channels) -> Result<Ran, Refusal> {
        Ran::of(ffi::strip(&self.block, &mut self.state, channels))
    }

    /// Closes the run, and answers its width and the bad samples of all strips. Refused by 11.
    pub fn close(&mut self) -> Result<Ran, Refusal> {
        Ran::of(ffi::close(&self.block, &mut self.state))
    }
}
