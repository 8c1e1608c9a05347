//! The Rust parser and its patched copy as functions: for the program `oracle`, the fuzzer and the benchmark.
//! ../../../README.md says which answer counts and has the program's commands.
pub mod case;
pub mod checks;
pub mod doc01;
pub mod generate;
pub mod lines;
pub mod offset;
pub mod once;
pub mod parents;
pub mod parsed;
pub mod parsers;
pub mod rng;
pub mod token;
