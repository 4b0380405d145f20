//! Options that nothing here reads.
//! Stand-in for the crate's own: its names and signatures, with bodies of ours.

#[derive(Clone, Debug, Default)]
pub struct ConfigOptions {}
