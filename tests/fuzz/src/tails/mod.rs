//! Document 01's demand 3, as request 7/14 of document 02 has it, over the library alone: two source files that agree
//! after a semicolon which ends a top-level property, node or directive agree in all that is later, once places are
//! moved.
mod later;
mod pair;
pub mod run;
