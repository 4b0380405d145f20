//! The original on frames: from bytes to its trees, its calls, and back to bytes.

mod reader;
mod trees;

use datafusion_physical_plan::joins::utils::JoinFilter;
use driver::answer::taken_leaf;
use driver::original::Extracted;
use sedona_query_planner::reach::transform_join_filter;
use sedona_query_planner::spatial_predicate::SpatialPredicate;

pub use trees::{Functions, extraction, join_filter, logical_filter};

/// The original's extraction. Its columns' names tell the form of the conjunct that was taken.
pub fn extract(filter: &JoinFilter) -> Extracted {
    let (predicate, remainder) = transform_join_filter(filter).expect("the frames have a match");
    let form = match &predicate {
        SpatialPredicate::Distance(distance) => taken_leaf(&distance.left),
        _ => None,
    };
    Extracted {
        predicate,
        form: form.unwrap_or(0) as u8,
        remainder,
    }
}
