//! Errors with a text.
//! Stand-in for the crate's own: its names and signatures, with bodies of ours.

use std::fmt;

#[derive(Debug)]
pub enum DataFusionError {
    NotImplemented(String),
    Internal(String),
}

impl fmt::Display for DataFusionError {
    fn fmt(&self, f: &mut fmt::Formatter<'_>) -> fmt::Result {
        match self {
            DataFusionError::NotImplemented(text) => write!(f, "not implemented: {text}"),
            DataFusionError::Internal(text) => write!(f, "internal error: {text}"),
        }
    }
}

impl std::error::Error for DataFusionError {}

pub type Result<T, E = DataFusionError> = std::result::Result<T, E>;
