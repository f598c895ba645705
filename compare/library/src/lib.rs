//! The library's C functions on the lists of `generator`, in files named as those of
//! `crates/sizhbanto/src`; and the structs of lists that they are lent.
pub mod analysis;
pub mod assessment;
pub mod checks;
pub mod description;
pub mod marking;
pub mod ordering;
pub mod path;
pub mod reconvergent;
mod scene;
pub mod traces;

pub use sizhbanto::raw::lent;
