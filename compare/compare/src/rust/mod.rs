//! The unchanged Rust's answer for an accepted scene, in document 01's numbers.
mod assess;
mod describe;
mod left_out;

use std::collections::BTreeMap;

use dustroute_ir::TemporalAnalysis;
use dustroute_physical::{
    Block, BlockKind, ComponentId, PhysicalScene, PortConnection, PortRef, Pos, SceneComponent,
    TransferKind,
};
use generator::lists::{ABSENT_DELAY, SceneLists};

pub use assess::assessed;
pub use describe::described;
pub use left_out::left_out;

pub fn analysis(lists: &SceneLists) -> TemporalAnalysis {
    TemporalAnalysis::from_scene(&physical_scene(lists))
}

pub fn physical_scene(lists: &SceneLists) -> PhysicalScene {
    PhysicalScene {
        components: (0..lists.ids.len()).map(|i| component(lists, i)).collect(),
        connections: (0..lists.sources.len())
            .map(|i| connection(lists, i))
            .collect(),
    }
}

fn component(lists: &SceneLists, i: usize) -> SceneComponent {
    let delay = lists.delays[i];
    SceneComponent {
        id: ComponentId(lists.ids[i]),
        pos: Pos {
            x: lists.xs[i],
            y: lists.ys[i],
            z: lists.zs[i],
        },
        block: Block {
            kind: BlockKind::ALL[usize::from(lists.kinds[i])],
            delay: (delay != ABSENT_DELAY).then_some(delay as u8),
            observed_properties: properties(lists.ids[i], lists.locked[i]),
        },
    }
}

/// A flag of 0 is said in one of three ways, by the id.
fn properties(id: u64, locked: u8) -> BTreeMap<String, String> {
    let text = match (locked, id % 3) {
        (1, _) => "true",
        (_, 0) => return BTreeMap::new(),
        (_, 1) => "false",
        _ => "TRUE",
    };
    BTreeMap::from([("locked".to_owned(), text.to_owned())])
}

fn connection(lists: &SceneLists, i: usize) -> PortConnection {
    let port = |id| PortRef {
        component: ComponentId(id),
    };
    PortConnection {
        source: port(lists.sources[i]),
        sink: port(lists.sinks[i]),
        transfer: TransferKind::ALL[usize::from(lists.transfers[i])],
    }
}
