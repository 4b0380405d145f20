//! Columns that follow the projection of a child.
//! Stand-in for the crate's own: its names and signatures, with bodies of ours.

use std::sync::Arc;

use datafusion_common::Result;

use crate::PhysicalExpr;
use crate::expressions::Column;

#[derive(Clone, Debug)]
pub struct ProjectionExpr {
    pub expr: Arc<dyn PhysicalExpr>,
    pub alias: String,
}

/// Its body isn't among the files. This is the rule of request 7 of document 02: a column's index
/// becomes the position of the first column of this index, and there is nothing where one is lacking.
pub fn update_expr(
    expr: &Arc<dyn PhysicalExpr>,
    projected_exprs: &[ProjectionExpr],
    unproject: bool,
) -> Result<Option<Arc<dyn PhysicalExpr>>> {
    if let Some(column) = expr.downcast_ref::<Column>() {
        let equal = |item: &ProjectionExpr| {
            let item = item.expr.downcast_ref::<Column>();
            item.is_some_and(|item| item.index() == column.index())
        };
        let place = projected_exprs.iter().position(equal);
        let moved = |place| Arc::new(Column::new(column.name(), place)) as Arc<dyn PhysicalExpr>;
        return Ok(place.map(moved));
    }
    let mut children = Vec::new();
    for child in expr.children() {
        match update_expr(child, projected_exprs, unproject)? {
            Some(child) => children.push(child),
            None => return Ok(None),
        }
    }
    Arc::clone(expr).with_new_children(children).map(Some)
}
