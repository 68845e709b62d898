//! Stands in for `error.rs`, which is not given: the errors that `convert.rs` names.

#[derive(Debug)]
pub enum Error {
    UnsupportedColorEncoding,
    UnsupportedIccProfile,
    CmsFailure(Box<dyn std::error::Error + Send + Sync>),
}

pub type Result<T> = std::result::Result<T, Error>;
