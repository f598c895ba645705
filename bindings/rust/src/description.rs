//! Lists 0, 1 and 2.
use crate::raw::{self, BlockKind, EdgeBehavior, TemporalSemantics};
use crate::{DelayRange, Pos, known};

/// A connection that is an edge, with the delay of its source.
#[derive(Clone, Copy, Debug, Eq, Hash, PartialEq)]
pub struct TimedEdge {
    /// The id of the component that it leaves.
    pub source: u64,
    /// The id of the component that it enters.
    pub sink: u64,
    /// That of its source.
    pub delay: DelayRange,
    /// What its source does to a signal.
    pub behavior: EdgeBehavior,
}

/// A component that does something in time.
#[derive(Clone, Copy, Debug, Eq, PartialEq)]
pub struct TemporalDevice {
    /// Its id.
    pub component: u64,
    /// Where it stands.
    pub physical_position: Pos,
    /// What it does.
    pub semantics: TemporalSemantics,
    /// How long it takes at least.
    pub minimum_delay_redstone_ticks: u32,
}

/// What the analysis stands on.
#[derive(Clone, Copy, Debug, Eq, Hash, PartialEq)]
pub enum TemporalEvidence {
    /// A connection, a structural support too.
    VerifiedPhysicalConnection {
        /// The id of the component that it leaves.
        source: u64,
        /// The id of the component that it enters.
        sink: u64,
    },
    /// A device.
    DeviceSemantics {
        /// Its id.
        component: u64,
        /// Its kind.
        block: BlockKind,
    },
}

// Entries 0 up to `used` of each list; the library answers how many are used.

pub(crate) fn timed_edges(lists: &raw::TimedEdgeLists, used: u64) -> Vec<TimedEdge> {
    let entry = |i: usize| TimedEdge {
        source: lists.sources[i],
        sink: lists.sinks[i],
        delay: DelayRange {
            minimum_redstone_ticks: lists.minimums[i],
            maximum_redstone_ticks: lists.maximums[i],
        },
        behavior: known(EdgeBehavior::from_code(lists.behaviors[i])),
    };
    (0..used as usize).map(entry).collect()
}

pub(crate) fn devices(lists: &raw::DeviceLists, used: u64) -> Vec<TemporalDevice> {
    let entry = |i: usize| TemporalDevice {
        component: lists.components[i],
        physical_position: Pos {
            x: lists.xs[i],
            y: lists.ys[i],
            z: lists.zs[i],
        },
        semantics: known(TemporalSemantics::from_code(lists.semantics[i])),
        minimum_delay_redstone_ticks: lists.delays[i],
    };
    (0..used as usize).map(entry).collect()
}

pub(crate) fn evidence(lists: &raw::EvidenceLists, used: u64) -> Vec<TemporalEvidence> {
    use raw::TemporalEvidence as Kind;
    let entry = |i: usize| match known(Kind::from_code(lists.kinds[i])) {
        Kind::VerifiedPhysicalConnection => TemporalEvidence::VerifiedPhysicalConnection {
            source: lists.sources[i],
            sink: lists.sinks[i],
        },
        Kind::DeviceSemantics => TemporalEvidence::DeviceSemantics {
            component: lists.components[i],
            block: known(BlockKind::from_code(lists.blocks[i])),
        },
    };
    (0..used as usize).map(entry).collect()
}
