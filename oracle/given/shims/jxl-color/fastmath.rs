//! Stands in for `fastmath.rs`, which is not given. None of the given files uses it.
