//! Logical columns.
//! Stand-in for the crate's own: its names and signatures, with bodies of ours.

/// A logical column; here always without a table's name.
#[derive(Clone, Debug, PartialEq, Eq, Hash)]
pub struct Column {
    pub name: String,
}

impl Column {
    pub fn from_name(name: impl Into<String>) -> Self {
        Column { name: name.into() }
    }
}
