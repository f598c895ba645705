//! The checks of a scene, and list 4 alone.
use generator::lists::SceneLists;
use sizhbanto::raw;

pub use sizhbanto::raw::{CheckedNumbers, FeedbackNumbers};

use crate::scene;

pub fn check_scene(lists: &SceneLists, first: usize, room: &[usize]) -> CheckedNumbers {
    raw::check_scene(&scene::lent(lists), first, room)
}

pub fn feedback_scene(lists: &SceneLists, feedback: &mut [u64]) -> FeedbackNumbers {
    raw::feedback_scene(&scene::lent(lists), feedback)
}
