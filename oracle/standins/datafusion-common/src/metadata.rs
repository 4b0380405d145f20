//! A part of logical literals.
//! Stand-in for the crate's own: its names and signatures, with bodies of ours.

/// Never made here: it is a part of logical literals only.
#[derive(Clone, Debug)]
pub enum FieldMetadata {}
