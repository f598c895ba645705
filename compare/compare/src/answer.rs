//! A side's answer to an accepted scene, for each call.
use library::analysis::AnalyzeNumbers;
use library::assessment::AssessNumbers;
use library::description::DescribeNumbers;

use crate::calls::{AnalyzeLists, AssessEntries, AssessLists, DescribeLists, SceneCall};

/// The numbers that a call hands back, and the entries of its lists that are in use.
pub struct Answer<C: SceneCall> {
    pub numbers: C::Numbers,
    pub entries: C::Entries,
}

pub type Described = Answer<DescribeLists>;
pub type Assessed = Answer<AssessLists>;
pub type Analyzed = Answer<AnalyzeLists>;

/// A projected edge with its path; where the path is stored is left out.
#[derive(Clone, Debug, Eq, Ord, PartialEq, PartialOrd)]
pub struct ProjectedEdge {
    pub source: u64,
    pub sink: u64,
    pub inverted: bool,
    pub minimum: u32,
    pub maximum: u32,
    pub path: Vec<u64>,
}

/// The numbers of the one call, by those of its parts.
pub fn analyze_numbers(first: DescribeNumbers, second: AssessNumbers) -> AnalyzeNumbers {
    AnalyzeNumbers {
        timed_edges: first.timed_edges,
        devices: first.devices,
        evidence: first.evidence,
        scope: second.scope,
        pattern: second.pattern,
        confidence: second.confidence,
        reasons: second.reasons,
        feedback: second.feedback,
        retained: second.retained,
        compressed: second.compressed,
        projected: second.projected,
        path_ids: second.path_ids,
        ..AnalyzeNumbers::default()
    }
}

impl AssessEntries {
    /// One more entry of list 3.
    pub fn push_reason(&mut self, kind: u8, component: u64, block: u8, [low, high]: [u32; 2]) {
        self.reason_kinds.push(kind);
        self.reason_components.push(component);
        self.reason_blocks.push(block);
        self.reason_minimums.push(low);
        self.reason_maximums.push(high);
    }

    /// One more entry of list 6, its path behind those that list 7 has.
    pub fn push_projected(&mut self, edge: &ProjectedEdge) {
        self.projected_sources.push(edge.source);
        self.projected_sinks.push(edge.sink);
        self.projected_inverted.push(u8::from(edge.inverted));
        self.projected_minimums.push(edge.minimum);
        self.projected_maximums.push(edge.maximum);
        self.projected_starts.push(self.path_ids.len());
        self.projected_lengths.push(edge.path.len());
        self.path_ids.extend(&edge.path);
    }

    /// One more entry of list 8.
    pub fn push_label(&mut self, label: Option<[u32; 2]>) {
        let [low, high] = label.unwrap_or_default();
        self.label_settled.push(u8::from(label.is_some()));
        self.label_lows.push(low);
        self.label_highs.push(high);
    }

    /// The entries of list 6 with their paths.
    pub fn projected(&self) -> Vec<ProjectedEdge> {
        let entry = |k: usize| {
            let start = self.projected_starts[k];
            ProjectedEdge {
                source: self.projected_sources[k],
                sink: self.projected_sinks[k],
                inverted: self.projected_inverted[k] == 1,
                minimum: self.projected_minimums[k],
                maximum: self.projected_maximums[k],
                path: self.path_ids[start..start + self.projected_lengths[k]].to_vec(),
            }
        };
        (0..self.projected_sources.len()).map(entry).collect()
    }
}
