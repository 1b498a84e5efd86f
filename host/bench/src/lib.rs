//! What the benchmarks are made of: straightforward Rust hashes, a checker over them, timing,
//! and the whole of bench-check but its `main`.

pub mod arguments;
pub mod buffer;
pub mod check;
pub mod checker;
pub mod plain;
pub mod timing;
