//! Lists 0 to 8.
use generator::lists::SceneLists;
use sizhbanto::raw::{self, lent};

pub use sizhbanto::raw::AnalysisNumbers as AnalyzeNumbers;

use crate::scene;

pub fn analyze_scene(lists: &SceneLists, lent: &mut lent::SceneLists) -> AnalyzeNumbers {
    raw::analyze_scene(&scene::lent(lists), lent)
}
