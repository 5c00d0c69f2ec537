//! Compares the proved expander with the plain one: texts to try, and the comparison of two answers.

pub mod arguments;
pub mod census;
pub mod clock;
pub mod damage;
pub mod libraries;
pub mod limits;
pub mod mirrors;
pub mod notation;
pub mod pair;
pub mod programs;
pub mod random;
pub mod samples;
pub mod scribe;
pub mod shears;
pub mod stops;
pub mod tally;
pub mod tools;
pub mod workloads;
