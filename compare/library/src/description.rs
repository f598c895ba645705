//! Lists 0, 1 and 2.
use generator::lists::SceneLists;
use sizhbanto::raw::{self, lent};

pub use sizhbanto::raw::DescriptionNumbers as DescribeNumbers;

use crate::scene;

/// Hands a macro, after what it is to get first, the call's number lists: for each the output list
/// that it is a field of, and where it is in the struct that the call is lent.
#[macro_export]
macro_rules! describe_lists {
    ($declare:ident!($($first:tt)*)) => {
        $declare!($($first)* {
            edge_sources: u64 = 0 at edges.sources,
            edge_sinks: u64 = 0 at edges.sinks,
            edge_minimums: u32 = 0 at edges.minimums,
            edge_maximums: u32 = 0 at edges.maximums,
            edge_behaviors: u8 = 0 at edges.behaviors,
            device_components: u64 = 1 at devices.components,
            device_xs: i32 = 1 at devices.xs,
            device_ys: i32 = 1 at devices.ys,
            device_zs: i32 = 1 at devices.zs,
            device_semantics: u8 = 1 at devices.semantics,
            device_delays: u32 = 1 at devices.delays,
            evidence_kinds: u8 = 2 at evidence.kinds,
            evidence_sources: u64 = 2 at evidence.sources,
            evidence_sinks: u64 = 2 at evidence.sinks,
            evidence_components: u64 = 2 at evidence.components,
            evidence_blocks: u8 = 2 at evidence.blocks,
        });
    };
}

pub fn describe_scene(lists: &SceneLists, lent: &mut lent::DescriptionLists) -> DescribeNumbers {
    raw::describe_scene(&scene::lent(lists), lent)
}
