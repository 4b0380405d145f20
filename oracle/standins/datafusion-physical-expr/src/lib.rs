//! Stand-in for the crate of this name: what the three files and the driver use, no more.

pub mod expressions;
mod physical_expr;
pub mod projection;
mod scalar_function;

pub use physical_expr::PhysicalExpr;
pub use scalar_function::ScalarFunctionExpr;
