//! Scenes and traces in number lists: random ones by shape, every small one, and damaged ones.
pub mod damage;
pub mod faulty;
pub mod fill;
pub mod kinds;
pub mod lists;
pub mod rng;
pub mod shapes;
pub mod sketch;
pub mod small;
pub mod timing;
pub mod trace;
