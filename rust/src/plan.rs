//! Plans: made, read, checked, merged, joined and run.

use crate::encoding::{Encoding, Settings};
use crate::ffi::{self, Channels, Told};
use crate::refusal::Refusal;
use std::fmt;
use std::thread;

/// No plan block is longer.
const BLOCK_ROOM: usize = 1192;

/// A list of up to 32 ops that lead from one width, 1 channel or 3, to another.
///
/// It is held as its plan block, the bytes by which plans are stored and sent. What it prints is what an operator reads.
///
/// ```
/// use rindsaddle::{EnumColourEncoding, Plan, RenderingIntent::Relative, Settings};
///
/// let plan = Plan::new(EnumColourEncoding::xyb(Relative), EnumColourEncoding::srgb_linear(Relative), &Settings::default())?;
/// assert_eq!(plan.to_string(), "start 3 ops 2\n0 XybToMixedLms\n1 Matrix\nend 3\n");
/// # Ok::<(), rindsaddle::Refusal>(())
/// ```
#[derive(Clone, Debug)]
pub struct Plan {
    block: Vec<u8>,
    start: u8,
    end: u8,
}

/// How a run ended.
#[derive(Clone, Copy, Debug, PartialEq, Eq)]
pub struct Ran {
    /// The width that it ended at: how many channels hold the picture, 1 or 3.
    pub width: usize,
    /// How many samples within that width are infinite or NaN; of several strips together held at 2^64 - 1.
    pub bad: u64,
}

impl Plan {
    /// The plan from one encoding to another. Refused by 1, 2, 15, 3, and by 9 where a NaN of the settings gets into an op.
    pub fn new(source: impl Into<Encoding>, target: impl Into<Encoding>, settings: &Settings) -> Result<Plan, Refusal> {
        let (source, target) = (source.into().numbers(), target.into().numbers());
        let flags = [settings.detect_peak, settings.from_pq];
        written(|out| ffi::plan([&source, &target], &settings.floats(), flags, 2, out))
    }

    /// The plan of a block, and the bytes behind the block, which are the caller's. Refused by 7, 8, 9, 10.
    ///
    /// ```
    /// let bytes = b"CTP\x01\x00\x03\x01\x09and what follows";
    /// let (plan, rest) = rindsaddle::Plan::from_block(bytes)?;
    /// assert_eq!(plan.to_string(), "start 3 ops 1\n0 Clip\nend 3\n");
    /// assert_eq!(rest, b"and what follows");
    /// # Ok::<(), rindsaddle::Refusal>(())
    /// ```
    pub fn from_block(bytes: &[u8]) -> Result<(Plan, &[u8]), Refusal> {
        let told = ffi::read(bytes);
        Refusal::of(told[0] as u8, 0)?;
        let (block, rest) = bytes.split_at(told[1] as usize);
        Ok((Plan::of(block.to_vec(), told), rest))
    }

    /// The plan as a block of version 1, or of version 2, which also holds the end width. Refused by 8 for other versions, and by 15.
    pub fn to_block(&self, version: u16) -> Result<Vec<u8>, Refusal> {
        written(|out| ffi::rewrite(&self.block, version, out)).map(|plan| plan.block)
    }

    /// Puts the block at the front of a buffer, and answers its length, at most 1,192. Refused by 8, 15, and by 12 where the buffer is too short.
    pub fn write_block(&self, version: u16, out: &mut [u8]) -> Result<usize, Refusal> {
        let told = ffi::rewrite(&self.block, version, out);
        Refusal::of(told[0] as u8, 0)?;
        Ok(told[1] as usize)
    }

    /// Whether each op finds the width that it needs, and the width at the end. Refused by 5.
    pub fn check(&self) -> Result<usize, Refusal> {
        let told = ffi::check(&self.block);
        Refusal::of(told[0] as u8, told[1])?;
        Ok(told[2] as usize)
    }

    /// The plan with each run of matrices made one, as every plan is made. Refused by 9 where a product is NaN, and by 15.
    pub fn merge(&self) -> Result<Plan, Refusal> {
        written(|out| ffi::merge(&self.block, out))
    }

    /// The ops of this plan and then those of another. Refused by 10, 5, 15.
    pub fn join(&self, second: &Plan) -> Result<Plan, Refusal> {
        let mut out = vec![0; BLOCK_ROOM];
        let told = ffi::join(&self.block, &second.block, 2, &mut out);
        Refusal::of(told[0] as u8, told[1])?;
        out.truncate(told[2] as usize);
        Ok(Plan { block: out, start: self.start, end: told[3] as u8 })
    }

    /// Applies the plan to three equally long channels, in place. At width 1 the picture is in the first, and the others are room. Refused by 4, 5, 6.
    ///
    /// ```
    /// use rindsaddle::{screen_bytes, EnumColourEncoding, Plan, RenderingIntent::Relative, Settings};
    ///
    /// let plan = Plan::new(EnumColourEncoding::xyb(Relative), EnumColourEncoding::srgb_linear(Relative), &Settings::default())?;
    /// let (mut a, mut b, mut c) = ([0.0, 0.01979, 0.0], [0.8453, 0.37586, 0.0], [0.8453, 0.36405, 0.0]);
    /// let ran = plan.run([&mut a, &mut b, &mut c])?;
    /// assert_eq!((ran.width, ran.bad), (3, 0));
    ///
    /// let mut red = [0; 3];
    /// screen_bytes(&a, &mut red)?;
    /// assert_eq!(red, [255, 128, 0]);
    /// # Ok::<(), rindsaddle::Refusal>(())
    /// ```
    pub fn run(&self, channels: Channels) -> Result<Ran, Refusal> {
        Ran::of(ffi::run(&self.block, channels))
    }

    /// The same, cut into strips that as many threads run at once; of no thread, on one. What is left and answered is what [`run`](Plan::run) leaves and
    /// answers: an op treats each sample by itself, and what is refused but lengths depends on the list alone.
    pub fn run_on(&self, threads: usize, channels: Channels) -> Result<Ran, Refusal> {
        let length = channels[0].len();
        if threads < 2 || length < 2 || channels.iter().any(|channel| channel.len() != length) {
            return self.run(channels);
        }
        let size = (length + threads - 1) / threads;
        let [a, b, c] = channels.map(|channel| channel.chunks_mut(size));
        thread::scope(|scope| {
            let strips = a.zip(b).zip(c).map(|((a, b), c)| scope.spawn(move || self.run([a, b, c])));
            let strips: Vec<_> = strips.collect();
            let ran = strips.into_iter().map(|strip| strip.join().expect("a run does not panic"));
            ran.reduce(|one, two| Ok(one?.and(two?))).expect("there is a strip")
        })
    }

    /// The width that the plan starts with, 1 or 3.
    pub fn input_channels(&self) -> usize {
        self.start.into()
    }

    /// The width that it ends with, 0 where [`check`](Plan::check) refuses it.
    pub fn output_channels(&self) -> usize {
        self.end.into()
    }

    /// Whether it has no op.
    pub fn is_noop(&self) -> bool {
        self.block[COUNT] == 0
    }

    /// The block as it was read or made.
    pub(crate) fn block(&self) -> &[u8] {
        &self.block
    }

    /// A block that the library has read or made, and what it told: number, length used, start width, end width.
    fn of(block: Vec<u8>, [_, _, start, end]: Told) -> Plan {
        Plan { block, start: start as u8, end: end as u8 }
    }
}

/// Where a block has the number of its ops.
const COUNT: usize = 6;

/// The plan of a block that a function writes, and tells the length and the widths of.
fn written(write: impl FnOnce(&mut [u8]) -> Told) -> Result<Plan, Refusal> {
    let mut out = vec![0; BLOCK_ROOM];
    let told = write(&mut out);
    Refusal::of(told[0] as u8, 0)?;
    out.truncate(told[1] as usize);
    Ok(Plan::of(out, told))
}

impl Ran {
    /// Of what is told of a run: number, position, width, bad samples.
    pub(crate) fn of([number, position, width, bad]: Told) -> Result<Ran, Refusal> {
        Refusal::of(number as u8, position)?;
        Ok(Ran { width: width as usize, bad })
    }

    /// Of two strips of one run.
    fn and(self, other: Ran) -> Ran {
        Ran { width: self.width, bad: self.bad.saturating_add(other.bad) }
    }
}

/// Line by line, for an operator: the start width and the number of ops, each op by its name, the end width or where the check refuses.
impl fmt::Display for Plan {
    fn fmt(&self, f: &mut fmt::Formatter<'_>) -> fmt::Result {
        let mut text = [0; 1024];
        let size = ffi::text(&self.block, &mut text);
        f.write_str(&String::from_utf8_lossy(&text[..size]))
    }
}
