//! What the library's passes over graphs have to answer, and what document 01 says of traces, in
//! plain Rust.
pub mod reconvergence;
pub mod shared;
pub mod trace;
