//! The library's calls as `bindings/c/sizhbanto.h` declares them: `build` writes all that stands
//! here from that header, but for the lists of [`lent`].
//!
//! Each call is there twice: by its name in C, and without `sizhbanto_` as a safe function that is
//! lent slices and the structs of [`lent`]. Each struct of lists is there twice too: here with
//! vectors, whose `lend` makes that of [`lent`], which has pointers and lengths as in C. Here alone
//! is unsafe code.
//!
//! ```
//! use sizhbanto::raw::{self, Scene, SceneLists};
//!
//! let mut scene = Scene::with_room(1, 0);
//! scene.components.kinds[0] = raw::BlockKind::RedstoneTorch.code();
//! let mut lists = SceneLists::with_room(1, 0);
//! let answer = raw::analyze_scene(&scene.lend(), &mut lists.lend());
//! assert_eq!((answer.number, answer.devices, lists.description.devices.delays[0]), (0, 1, 1));
//!
//! lists.assessment.reasons.kinds.pop();
//! let answer = raw::analyze_scene(&scene.lend(), &mut lists.lend());
//! assert_eq!((answer.number, answer.place), (7, 3)); // list 3 is too short
//! ```
#![allow(
    unsafe_code,
    rustdoc::broken_intra_doc_links,
    clippy::too_many_arguments
)]
mod list;

include!(concat!(env!("OUT_DIR"), "/raw.rs"));
