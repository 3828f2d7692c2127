//! Random inputs for the tests and the tools: shapes, tables, calls and run files, valid and damaged. What the rules say of
//! each is asked of the second implementation.

#![forbid(unsafe_code)]

pub mod calls;
mod random;
pub mod runfiles;
mod shape;

pub use random::Random;
pub use shape::Shape;
