//! Both parsers over the same inputs. ../../docs/BENCHMARK.md says what is measured and how it is run.
pub mod clock;
pub mod input;
pub mod port;
pub mod rust;
pub mod text;
