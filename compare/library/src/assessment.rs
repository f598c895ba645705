//! Lists 3 to 8.
use generator::lists::SceneLists;
use sizhbanto::raw::{self, lent};

pub use sizhbanto::raw::SceneNumbers as AssessNumbers;

use crate::scene;

/// Hands a macro, after what it is to get first, the call's number lists: for each the output list
/// that it is a field of, and where it is in the struct that the call is lent.
#[macro_export]
macro_rules! assess_lists {
    ($declare:ident!($($first:tt)*)) => {
        $declare!($($first)* {
            reason_kinds: u8 = 3 at reasons.kinds,
            reason_components: u64 = 3 at reasons.components,
            reason_blocks: u8 = 3 at reasons.blocks,
            reason_minimums: u32 = 3 at reasons.minimums,
            reason_maximums: u32 = 3 at reasons.maximums,
            feedback_ids: u64 = 4 at feedback_ids,
            marks: u8 = 5 at marks,
            projected_sources: u64 = 6 at projected.sources,
            projected_sinks: u64 = 6 at projected.sinks,
            projected_inverted: u8 = 6 at projected.inverted,
            projected_minimums: u32 = 6 at projected.minimums,
            projected_maximums: u32 = 6 at projected.maximums,
            projected_starts: usize = 6 at projected.starts,
            projected_lengths: usize = 6 at projected.lengths,
            path_ids: u64 = 7 at projected.path_ids,
            label_settled: u8 = 8 at labels.settled,
            label_lows: u32 = 8 at labels.lows,
            label_highs: u32 = 8 at labels.highs,
        });
    };
}

pub fn assess_scene(lists: &SceneLists, lent: &mut lent::AssessmentLists) -> AssessNumbers {
    raw::assess_scene(&scene::lent(lists), lent)
}
