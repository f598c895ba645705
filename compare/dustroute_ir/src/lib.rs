//! The two reference files, unchanged: they are read in place from docs/src, and no copy exists
//! that could differ from them.
#[path = "../../../docs/src/crates/dustroute-ir/src/physical_projection.rs"]
mod physical_projection;
#[path = "../../../docs/src/crates/dustroute-ir/src/transient.rs"]
mod transient;

pub use physical_projection::*;
pub use transient::*;
