//! Functions, of which a frame has the names only.
//! Stand-in for the crate's own: its names and signatures, with bodies of ours.

use std::fmt;
use std::sync::Arc;

use datafusion_common::Result;
use datafusion_common::arrow::datatypes::DataType;

use crate::ColumnarValue;

pub type ScalarFunctionImplementation =
    Arc<dyn Fn(&[ColumnarValue]) -> Result<ColumnarValue> + Send + Sync>;

#[derive(Clone, Copy, Debug)]
pub enum Volatility {
    Immutable,
}

/// A function is only its name here; it is never called.
#[derive(Clone, Debug)]
pub struct ScalarUDF {
    name: String,
}

impl ScalarUDF {
    pub fn name(&self) -> &str {
        &self.name
    }
}

impl fmt::Display for ScalarUDF {
    fn fmt(&self, f: &mut fmt::Formatter<'_>) -> fmt::Result {
        f.write_str(&self.name)
    }
}

pub fn create_udf(
    name: &str,
    _input_types: Vec<DataType>,
    _return_type: DataType,
    _volatility: Volatility,
    _fun: ScalarFunctionImplementation,
) -> ScalarUDF {
    ScalarUDF {
        name: name.to_owned(),
    }
}
