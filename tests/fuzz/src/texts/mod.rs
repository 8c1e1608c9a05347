//! The call over a text: random texts, every short text, and texts for valgrind, against ../text.rs and the Rust.
mod call;
pub mod every;
pub mod exact;
mod judge;
pub mod run;
mod show;
mod shrink;
