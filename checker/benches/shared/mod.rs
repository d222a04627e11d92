//! What the benchmarks share.
//!
//! - `machines`, `rules`: the sheets.
//! - `tuned`: the same jobs in tuned Rust.
//! - `table`: times, and the table of them.

pub mod machines;
pub mod rules;
pub mod table;
pub mod tuned;
