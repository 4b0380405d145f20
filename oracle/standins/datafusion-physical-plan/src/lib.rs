//! Stand-in for the crate of this name: what the three files and the driver use, no more.

pub mod joins;

pub mod projection {
    pub use datafusion_physical_expr::projection::ProjectionExpr;
}
