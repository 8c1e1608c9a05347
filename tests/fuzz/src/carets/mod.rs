//! The two queries of a source file: random files, given files, and files for valgrind, against ../caret.rs and the
//! Rust.
mod asked;
mod call;
pub mod exact;
pub mod files;
mod judge;
pub mod run;
mod rust;
mod search;
mod show;
