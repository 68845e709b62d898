//! The crate, called as a program calls it: good input, each refusal, and the same answers by every way to them.

mod common;
mod conversions;
mod plans;
mod refusals;
mod runs;
