//! What the scene call answers.
use crate::assessment::{labels, marks, projected, reasons};
use crate::description::{devices, evidence, timed_edges};
use crate::raw::{self, BehaviorPattern, Mark, TemporalScope};
use crate::{
    Label, Refusal, Scene, SteadyStateEdge, TemporalDevice, TemporalEvidence, TimedEdge,
    TimingReason, known,
};

/// The analysis of a scene.
#[derive(Clone, Debug, Eq, PartialEq)]
pub struct Report {
    /// Every connection that is an edge, in their order (list 0).
    pub timed_edges: Vec<TimedEdge>,
    /// Torches, repeaters, comparators and pistons, in component order (list 1).
    pub devices: Vec<TemporalDevice>,
    /// Every connection in their order, then the devices (list 2).
    pub evidence: Vec<TemporalEvidence>,
    /// Feedback; comparators, pistons and locked repeaters in component order; unequal delays by
    /// rising id (list 3).
    pub reasons: Vec<TimingReason>,
    /// The components of the Feedback reason and of a clock or latch candidate, in component order
    /// (list 4).
    pub feedback: Vec<u64>,
    /// Whether the projection retains a component, in component order (list 5).
    pub marks: Vec<Mark>,
    /// The edges between retained components, each with its path (lists 6 and 7).
    pub projected: Vec<SteadyStateEdge>,
    /// The label of each component, in component order (list 8).
    pub labels: Vec<Label>,
    /// What the reasons come to.
    pub scope: TemporalScope,
    /// What the build looks like.
    pub pattern: BehaviorPattern,
    /// How sure this is; always 100.
    pub confidence_percent: u8,
}

impl Scene {
    /// Analyses the scene, or says why it is refused.
    pub fn report(&self) -> Result<Report, Refusal> {
        let mut lists = raw::SceneLists::with_room(self.components.len(), self.connections.len());
        let numbers = raw::analyze_scene(&self.lists().lend(), &mut lists.lend());
        Refusal::check(numbers.number, numbers.place)?;
        let raw::SceneLists {
            description,
            mut assessment,
        } = lists;
        assessment.feedback_ids.truncate(numbers.feedback as usize);
        Ok(Report {
            timed_edges: timed_edges(&description.edges, numbers.timed_edges),
            devices: devices(&description.devices, numbers.devices),
            evidence: evidence(&description.evidence, numbers.evidence),
            reasons: reasons(&assessment.reasons, numbers.reasons),
            marks: marks(&assessment.marks),
            projected: projected(&assessment.projected, numbers.projected),
            labels: labels(&assessment.labels),
            feedback: assessment.feedback_ids,
            scope: known(TemporalScope::from_code(numbers.scope)),
            pattern: known(BehaviorPattern::from_code(numbers.pattern)),
            confidence_percent: numbers.confidence,
        })
    }
}
