//! The original crate's one module that the planner uses, as it was published:
//! rust/sedona-expr/src/utils.rs. The build script fetches it; it is not kept here.

pub mod utils {
    include!(concat!(env!("OUT_DIR"), "/utils.rs"));
}
