//! The original crate's two modules, as they were published, and a way to their inner functions:
//! spatial_predicate.rs and spatial_expr_utils.rs of rust/sedona-query-planner/src. The build script
//! fetches them; they are not kept here.

pub mod reach;

pub mod spatial_predicate {
    include!(concat!(env!("OUT_DIR"), "/spatial_predicate.rs"));
}

mod spatial_expr_utils {
    include!(concat!(env!("OUT_DIR"), "/spatial_expr_utils.rs"));
}
