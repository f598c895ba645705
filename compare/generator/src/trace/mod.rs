//! Traces in number lists, with their contracts, and records: random ones, every small one, and
//! damaged ones.
pub mod contracts;
pub mod events;
pub mod faults;
pub mod lists;
pub mod record;
pub mod small;
