//! The original keeps these functions of rust/sedona-query-planner/src/spatial_expr_utils.rs inside
//! its crate; here the driver can call them, by their own names.

use std::collections::HashSet;

use datafusion_common::{DFSchema, JoinSide};
use datafusion_expr::Expr;
use datafusion_physical_plan::joins::utils::JoinFilter;

use crate::spatial_expr_utils::{self, KNNJoinQuerySide};
use crate::spatial_predicate::SpatialPredicate;

pub fn transform_join_filter(
    join_filter: &JoinFilter,
) -> Option<(SpatialPredicate, Option<JoinFilter>)> {
    spatial_expr_utils::transform_join_filter(join_filter)
}

pub fn collect_spatial_predicate_names(expr: &Expr) -> HashSet<String> {
    spatial_expr_utils::collect_spatial_predicate_names(expr)
}

/// The query side, `JoinSide::None` where the original finds none.
pub fn find_knn_query_side(
    filter_expr: &Expr,
    left_schema: &DFSchema,
    right_schema: &DFSchema,
) -> JoinSide {
    match spatial_expr_utils::find_knn_query_side(filter_expr, left_schema, right_schema) {
        Some(KNNJoinQuerySide::Left) => JoinSide::Left,
        Some(KNNJoinQuerySide::Right) => JoinSide::Right,
        None => JoinSide::None,
    }
}
