//! The original's projections, with request 7's rule of document 02 for what becomes of a column.

use std::sync::Arc;

use datafusion_common::JoinSide;
use datafusion_physical_expr::expressions::Column;
use datafusion_physical_plan::joins::utils::{ColumnIndex, JoinFilter};
use datafusion_physical_plan::projection::ProjectionExpr;
use sedona_query_planner::spatial_predicate::SpatialPredicateTrait;

use crate::original::Extracted;

impl Extracted {
    /// Over narrowed children; `None` where a list lacks an index. The predicate is projected by the
    /// original, but for what becomes of a column (request 7 of document 02).
    pub fn project(&self, lists: &[Vec<u16>; 2]) -> Option<Self> {
        let [left, right] = lists.each_ref().map(|list| projected_exprs(list));
        let predicate = self.predicate.update_for_child_projections(&left, &right);
        let remainder = match &self.remainder {
            Some(filter) => Some(project_filter(filter, lists)?),
            None => None,
        };
        Some(Extracted {
            predicate: predicate.expect("a probe side is left or right")?,
            form: self.form,
            remainder,
        })
    }
}

/// A child's columns that stay, as the original is told of them.
fn projected_exprs(list: &[u16]) -> Vec<ProjectionExpr> {
    let item = |index: &u16| ProjectionExpr {
        expr: Arc::new(Column::new("", usize::from(*index))),
        alias: String::new(),
    };
    list.iter().map(item).collect()
}

/// The join filter's own projection isn't among the files: request 7 of document 02 gives its rule.
fn project_filter(filter: &JoinFilter, lists: &[Vec<u16>; 2]) -> Option<JoinFilter> {
    let place = |column: &ColumnIndex| {
        let list = match column.side {
            JoinSide::Left => &lists[0],
            JoinSide::Right => &lists[1],
            JoinSide::None => return Some(column.clone()),
        };
        let index = list
            .iter()
            .position(|item| usize::from(*item) == column.index)?;
        let side = column.side;
        Some(ColumnIndex { index, side })
    };
    let columns: Option<Vec<ColumnIndex>> = filter.column_indices().iter().map(place).collect();
    let (expression, schema) = (filter.expression().clone(), filter.schema().clone());
    Some(JoinFilter::new(expression, columns?, schema))
}

#[cfg(test)]
mod tests {
    use reading::frame::{Frame, Plan};
    use reading::project::{Lists, project};
    use reading::settings::Settings;
    use reading::{decode, encode, physical, program};

    use crate::make::{self, lists::lists};
    use crate::original::transform;
    use crate::rng::Rng;

    /// The reading's projection of a frame's extraction, exchanged or not, is the original's but for the
    /// position; the first bytes of those that are accepted.
    fn projected(frame: &Frame, rng: &mut Rng) -> Option<u8> {
        let (mut extracted, read) = (
            transform(frame)?,
            physical::extract(frame, Settings::OF_THE_PROGRAM)?,
        );
        let mut plan = Plan::Extraction(read);
        if rng.one_in(2) {
            extracted.exchange();
            plan = physical::exchange(&plan);
        }
        let lists = lists(rng, &encode::plan(&plan));
        let [left, right] = &lists;
        let Plan::Extraction(read) = plan else {
            panic!("it was extracted");
        };
        let read = project(&read, Lists { left, right });
        let expected = read.map(|read| encode::plan(&Plan::Extraction(read)));
        let mut out = None;
        if let Some(projected) = extracted.project(&lists) {
            projected.put(out.insert(Vec::new()));
        }
        let without_position = |plan: Vec<u8>| [&plan[..1], &plan[3..]].concat();
        assert_eq!(out, expected.map(without_position));
        out.map(|plan| plan[0])
    }

    #[test]
    fn projections_are_the_originals() {
        let mut counts = [0; 3];
        for number in 0..8_000 {
            let mut rng = Rng::new(7, number);
            let line = make::case(7, number).lines.swap_remove(0);
            let bytes = program::parse(&line).unwrap_or_default();
            if let Ok(frame) = decode::physical(&bytes)
                && let Some(first) = projected(&frame, &mut rng)
            {
                counts[usize::from(first - 0x11)] += 1;
            }
        }
        assert!(counts.iter().all(|count| *count > 200), "{counts:?}");
    }
}
