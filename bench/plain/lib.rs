//! The planner in plain Rust: the same algorithms and the same fixed memory, with no contracts.
pub mod analysis;
pub mod boundary;
pub mod dispatch;
pub mod policy;
pub mod table;
pub mod tablefile;
