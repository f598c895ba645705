//! The same components in the same order, and the same connections in any order.
use std::fmt::Debug;

use generator::lists::SceneLists;
use generator::rng::Rng;

use crate::answer::{Assessed, Described};
use crate::calls::DescribeEntries;
use crate::difference::{Difference, equal};
use crate::expected::Expected;

const WHAT: &str = "two orders of the connections";

pub fn shuffle_connections(rng: &mut Rng, lists: &SceneLists) -> SceneLists {
    let mut order: Vec<_> = (0..lists.sources.len()).collect();
    rng.shuffle(&mut order);
    SceneLists {
        sources: order.iter().map(|i| lists.sources[*i]).collect(),
        sinks: order.iter().map(|i| lists.sinks[*i]).collect(),
        transfers: order.iter().map(|i| lists.transfers[*i]).collect(),
        ..lists.clone()
    }
}

/// "the same labels, the same reasons in the same order, the same retained and compressed
/// components, and each projected edge with its path's ids, wherever these are stored, equally
/// often"; the counts, scope and pattern with them.
pub fn same_answers(one: &Expected, other: &Expected) -> Result<(), Difference> {
    same_descriptions(&one.described, &other.described)?;
    same_assessments(&one.assessed, &other.assessed)
}

/// The counts and devices are the same, and each timed edge and each evidence is there equally often.
fn same_descriptions(one: &Described, other: &Described) -> Result<(), Difference> {
    equal(WHAT, &one.numbers, &other.numbers)?;
    let (one, other) = (&one.entries, &other.entries);
    equal(WHAT, &devices(one), &devices(other))?;
    equal(WHAT, &sorted_edges(one), &sorted_edges(other))?;
    equal(WHAT, &sorted_evidence(one), &sorted_evidence(other))
}

fn devices(of: &DescribeEntries) -> impl PartialEq + Debug {
    let positions = [&of.device_xs, &of.device_ys, &of.device_zs];
    let rest = (&of.device_semantics, &of.device_delays);
    (&of.device_components, positions, rest)
}

fn sorted_edges(of: &DescribeEntries) -> impl PartialEq + Debug {
    let entry = |k: usize| {
        let ends = [of.edge_sources[k], of.edge_sinks[k]];
        let delay = [of.edge_minimums[k], of.edge_maximums[k]];
        (ends, delay, of.edge_behaviors[k])
    };
    let mut entries: Vec<_> = (0..of.edge_sources.len()).map(entry).collect();
    entries.sort();
    entries
}

fn sorted_evidence(of: &DescribeEntries) -> impl PartialEq + Debug {
    let entry = |k: usize| {
        let ends = [of.evidence_sources[k], of.evidence_sinks[k]];
        let device = (of.evidence_components[k], of.evidence_blocks[k]);
        (ends, device, of.evidence_kinds[k])
    };
    let mut entries: Vec<_> = (0..of.evidence_kinds.len()).map(entry).collect();
    entries.sort();
    entries
}

fn same_assessments(one: &Assessed, other: &Assessed) -> Result<(), Difference> {
    equal(WHAT, &one.numbers, &other.numbers)?;
    let sorted = |answer: &Assessed| {
        let mut edges = answer.entries.projected();
        edges.sort();
        edges
    };
    equal(WHAT, &sorted(one), &sorted(other))?;
    // all other lists are in the order of the components or by rising id
    let mut rest = other.entries.clone();
    let of = &one.entries;
    rest.projected_sources = of.projected_sources.clone();
    rest.projected_sinks = of.projected_sinks.clone();
    rest.projected_inverted = of.projected_inverted.clone();
    rest.projected_minimums = of.projected_minimums.clone();
    rest.projected_maximums = of.projected_maximums.clone();
    rest.projected_starts = of.projected_starts.clone();
    rest.projected_lengths = of.projected_lengths.clone();
    rest.path_ids = of.path_ids.clone();
    let same = of.same(&rest);
    same.map_err(|told| Difference::new(WHAT, &told))
}
