//! Document 01 on traces and recording, in plain Rust: the refusals, and the answer to an accepted
//! trace by its words. Written to be read beside the document, not to be fast.
mod findings;
mod recording;
mod refusals;

pub use findings::{Answer, Finding, answer};
pub use recording::{grown, recording_need, recording_refusal};
pub use refusals::{Refusal, trace_refusal};
