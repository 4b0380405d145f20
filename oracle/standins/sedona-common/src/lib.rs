//! Stand-in for the crate of this name: the one macro that the files use.

#[doc(hidden)]
pub use datafusion_common::DataFusionError;

#[macro_export]
macro_rules! sedona_internal_err {
    ($($words:tt)*) => {
        Err($crate::DataFusionError::Internal(format!($($words)*)))
    };
}
