//! Shim of profiling: scope! does nothing (as the crate without a backend feature).
#[macro_export]
macro_rules! scope {
    ($($t:tt)*) => {};
}
