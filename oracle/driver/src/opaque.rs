//! Nodes of a frame that the original has no type for.

use std::fmt;
use std::hash::{Hash, Hasher};
use std::sync::Arc;

use datafusion_common::arrow::record_batch::RecordBatch;
use datafusion_common::{DataFusionError, Result};
use datafusion_expr::ColumnarValue;
use datafusion_physical_expr::PhysicalExpr;

/// What an opaque node stands for in a frame.
#[derive(Clone, Copy, Debug, PartialEq, Eq, Hash)]
pub enum Meaning {
    /// An "other" node with this tag.
    Other(u16),
    /// A binary of this number, for which DataFusion has no operator.
    Operator(u8),
    /// A literal 0 of this type in place of k, which is no literal k (request 5 of document 02).
    ZeroK(u8),
    /// An `st_dwithin` whose bound has mark columns only, which does not match (request 8). A comparison
    /// with such a bound is an operator.
    MarkedDwithin,
}

/// A node of a type that the original does not know, as most node types are to it.
#[derive(Clone, Debug)]
pub struct Opaque {
    pub meaning: Meaning,
    pub children: Vec<Arc<dyn PhysicalExpr>>,
}

impl fmt::Display for Opaque {
    fn fmt(&self, f: &mut fmt::Formatter<'_>) -> fmt::Result {
        write!(f, "{:?} of {} children", self.meaning, self.children.len())
    }
}

// The real trait asks for equality and a hash; the same children will do for both.
impl PartialEq for Opaque {
    fn eq(&self, other: &Self) -> bool {
        let pairs = self.children.iter().zip(&other.children);
        self.meaning == other.meaning
            && self.children.len() == other.children.len()
            && pairs.into_iter().all(|(a, b)| Arc::ptr_eq(a, b))
    }
}

impl Eq for Opaque {}

impl Hash for Opaque {
    fn hash<H: Hasher>(&self, state: &mut H) {
        self.meaning.hash(state);
    }
}

impl PhysicalExpr for Opaque {
    fn evaluate(&self, _batch: &RecordBatch) -> Result<ColumnarValue> {
        Err(DataFusionError::NotImplemented("evaluate".to_owned()))
    }

    fn children(&self) -> Vec<&Arc<dyn PhysicalExpr>> {
        self.children.iter().collect()
    }

    fn with_new_children(
        self: Arc<Self>,
        children: Vec<Arc<dyn PhysicalExpr>>,
    ) -> Result<Arc<dyn PhysicalExpr>> {
        Ok(Arc::new(Opaque {
            meaning: self.meaning,
            children,
        }))
    }

    fn fmt_sql(&self, f: &mut fmt::Formatter<'_>) -> fmt::Result {
        write!(f, "{self}")
    }
}
