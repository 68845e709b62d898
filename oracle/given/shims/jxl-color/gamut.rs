//! Stands in for `gamut.rs`, which is not given. None of the given files uses it.
