//! Lists 3 to 8.
use crate::known;
use crate::raw::{self, BlockKind, Mark};

/// The smallest and the largest delay.
#[derive(Clone, Copy, Debug, Default, Eq, Hash, PartialEq)]
pub struct DelayRange {
    /// Minecraft redstone ticks (two game ticks each).
    pub minimum_redstone_ticks: u32,
    /// Minecraft redstone ticks (two game ticks each).
    pub maximum_redstone_ticks: u32,
}

/// Why the settled state alone may not say what a build does.
#[derive(Clone, Copy, Debug, Eq, Hash, PartialEq)]
pub enum TimingReason {
    /// Ways of different delay meet.
    UnequalReconvergentDelay {
        /// The id of the component at which they meet.
        component: u64,
        /// The smallest sum of a way's delays.
        minimum_redstone_ticks: u32,
        /// The largest sum.
        maximum_redstone_ticks: u32,
    },
    /// There is a loop; its components are [`Report::feedback`](crate::Report::feedback).
    Feedback,
    /// A comparator or a piston.
    StatefulOrMechanicalDevice {
        /// Its id.
        component: u64,
        /// Its kind.
        block: BlockKind,
    },
    /// A repeater that is locked.
    LockedRepeater {
        /// Its id.
        component: u64,
    },
}

/// An edge of the projection, from one retained component to the next.
#[derive(Clone, Debug, Eq, Hash, PartialEq)]
pub struct SteadyStateEdge {
    /// The id of the component that it leaves.
    pub source: u64,
    /// The id of the component that it enters.
    pub sink: u64,
    /// Whether the signal is inverted on the way.
    pub inverted: bool,
    /// The sum of the delays on the way.
    pub retained_delay: DelayRange,
    /// The ids met, ends included.
    pub physical_path: Vec<u64>,
}

/// What stands beside a component.
#[derive(Clone, Copy, Debug, Eq, Hash, PartialEq)]
pub enum Label {
    /// The smallest and the largest sum of delays of a path to it, in redstone ticks.
    Settled {
        /// The smallest.
        low: u32,
        /// The largest.
        high: u32,
    },
    /// It is on a cycle or behind one.
    Unsettled,
}

// Entries 0 up to `used` of each list; the library answers how many are used.

pub(crate) fn reasons(lists: &raw::ReasonLists, used: u64) -> Vec<TimingReason> {
    use raw::TimingReason as Kind;
    let entry = |i: usize| {
        let component = lists.components[i];
        match known(Kind::from_code(lists.kinds[i])) {
            Kind::UnequalReconvergentDelay => TimingReason::UnequalReconvergentDelay {
                component,
                minimum_redstone_ticks: lists.minimums[i],
                maximum_redstone_ticks: lists.maximums[i],
            },
            Kind::Feedback => TimingReason::Feedback,
            Kind::StatefulOrMechanicalDevice => TimingReason::StatefulOrMechanicalDevice {
                component,
                block: known(BlockKind::from_code(lists.blocks[i])),
            },
            Kind::LockedRepeater => TimingReason::LockedRepeater { component },
        }
    };
    (0..used as usize).map(entry).collect()
}

pub(crate) fn marks(codes: &[u8]) -> Vec<Mark> {
    let mark = |code: &u8| known(Mark::from_code(*code));
    codes.iter().map(mark).collect()
}

pub(crate) fn projected(lists: &raw::ProjectionLists, used: u64) -> Vec<SteadyStateEdge> {
    let entry = |i: usize| SteadyStateEdge {
        source: lists.sources[i],
        sink: lists.sinks[i],
        inverted: lists.inverted[i] == 1,
        retained_delay: DelayRange {
            minimum_redstone_ticks: lists.minimums[i],
            maximum_redstone_ticks: lists.maximums[i],
        },
        physical_path: path(lists, i).to_vec(),
    };
    (0..used as usize).map(entry).collect()
}

/// The part of list 7 that holds the path of a projected edge.
fn path(lists: &raw::ProjectionLists, edge: usize) -> &[u64] {
    let ids = &lists.path_ids;
    let part = raw::projected_path(ids, &lists.starts, &lists.lengths, edge);
    &ids[part.start..part.start + part.length]
}

pub(crate) fn labels(lists: &raw::LabelLists) -> Vec<Label> {
    let entry = |i: usize| match lists.settled[i] {
        0 => Label::Unsettled,
        _ => Label::Settled {
            low: lists.lows[i],
            high: lists.highs[i],
        },
    };
    (0..lists.settled.len()).map(entry).collect()
}
