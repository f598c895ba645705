//! Stand-in for `serde`: the two names as derives and as traits that ask for nothing.
pub use serde_derive::{Deserialize, Serialize};

pub trait Serialize {}
pub trait Deserialize<'de> {}
