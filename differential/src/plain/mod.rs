//! Document 01, and document 02's logs, weights, levels and tables, in plain Rust, written from the papers alone: each function has
//! the paper's sentence above it.

pub mod bench;
pub mod disclosure;
pub mod interface;
pub mod levels;
pub mod lists;
pub mod log;
pub mod model;
pub mod policy;
pub mod session;
pub mod station;
pub mod table_bytes;
pub mod tables;
pub mod weights;
