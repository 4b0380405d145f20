//! What an evaluation gives; nothing is evaluated here.
//! Stand-in for the crate's own: its names and signatures, with bodies of ours.

use datafusion_common::ScalarValue;

#[derive(Clone, Debug)]
pub enum ColumnarValue {
    Scalar(ScalarValue),
}
