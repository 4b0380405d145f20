//! Stand-in for the crate of this name: what the three files and the driver use, no more.

pub mod arrow;
mod column;
pub mod config;
mod dfschema;
mod error;
mod join_type;
pub mod metadata;
mod scalar;
pub mod tree_node;

pub use column::Column;
pub use dfschema::DFSchema;
pub use error::{DataFusionError, Result};
pub use join_type::JoinSide;
pub use scalar::ScalarValue;
pub use std::collections::HashMap;
