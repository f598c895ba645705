//! Traces and recordings, held against the unchanged Rust and against document 01.
pub mod builds;
pub mod case;
pub mod expected;
pub mod fixed;
pub mod list9;
pub mod order;
pub mod reached;
pub mod recording;
pub mod rooms;
pub mod round;
pub mod run;
pub mod rust;
pub mod shrink;
pub mod sides;
pub mod tally;
