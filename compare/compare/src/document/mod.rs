//! Document 01 in plain Rust: the scene's refusals, 1 to 8, and the answer of an accepted scene by
//! its words. Written to be read beside the document, not to be fast.
mod assess;
mod describe;
mod graph;
mod labels;
mod paths;
mod projection;
mod reasons;
mod refusals;
mod table;

pub use assess::assessed;
pub use describe::described;
pub use refusals::{Refusal, expected_refusal, need};
