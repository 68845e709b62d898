//! Stands in for the crate `tracing`: a span that records nothing.

pub struct Span;

impl Span {
    pub fn entered(self) -> Self {
        self
    }
}

#[macro_export]
macro_rules! trace_span {
    ($name:literal) => {
        $crate::Span
    };
}
