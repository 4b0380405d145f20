//! Physical expressions.
//! Stand-in for the crate's own: its names and signatures, with bodies of ours.

use std::any::Any;
use std::fmt::{self, Debug, Display};
use std::sync::Arc;

use datafusion_common::arrow::record_batch::RecordBatch;
use datafusion_common::tree_node::DynTreeNode;
use datafusion_common::{DataFusionError, Result};
use datafusion_expr::ColumnarValue;

/// The real trait has no default for `evaluate` and `fmt_sql`; here nothing calls them.
pub trait PhysicalExpr: Any + Send + Sync + Display + Debug {
    fn evaluate(&self, _batch: &RecordBatch) -> Result<ColumnarValue> {
        Err(DataFusionError::NotImplemented("evaluate".to_owned()))
    }

    fn children(&self) -> Vec<&Arc<dyn PhysicalExpr>>;

    fn with_new_children(
        self: Arc<Self>,
        children: Vec<Arc<dyn PhysicalExpr>>,
    ) -> Result<Arc<dyn PhysicalExpr>>;

    fn fmt_sql(&self, f: &mut fmt::Formatter<'_>) -> fmt::Result {
        write!(f, "{self}")
    }
}

impl dyn PhysicalExpr {
    pub fn downcast_ref<T: PhysicalExpr>(&self) -> Option<&T> {
        let any: &dyn Any = self;
        any.downcast_ref()
    }
}

impl DynTreeNode for dyn PhysicalExpr {
    fn arc_children(&self) -> Vec<&Arc<Self>> {
        self.children()
    }

    fn with_new_arc_children(
        &self,
        arc_self: Arc<Self>,
        new_children: Vec<Arc<Self>>,
    ) -> Result<Arc<Self>> {
        arc_self.with_new_children(new_children)
    }
}
