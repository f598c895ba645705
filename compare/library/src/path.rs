//! The call that finds the part of list 7 that holds one edge's path.

pub use sizhbanto::raw::{PathPart, projected_path};
