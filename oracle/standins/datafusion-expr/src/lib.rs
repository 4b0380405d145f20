//! Stand-in for the crate of this name: what the three files and the driver use, no more.

mod columnar_value;
pub mod expr;
mod operator;
mod udf;

pub use columnar_value::ColumnarValue;
pub use expr::Expr;
pub use operator::Operator;
pub use udf::{ScalarFunctionImplementation, ScalarUDF, Volatility, create_udf};
