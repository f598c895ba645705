//! The calls of `raw`, whose lists need not be as long as a call needs them.
mod common;

use common::delayed_lamp;
use sizhbanto::raw::{self, AssessmentLists, DescriptionLists, SceneLists};
use sizhbanto::{BlockKind, Component, Scene};

/// Room for the answers, with contents that no call writes.
fn filled(components: usize, connections: usize) -> SceneLists {
    let mut lists = SceneLists::with_room(components, connections);
    let assessment = &mut lists.assessment;
    assessment.feedback_ids.fill(77);
    assessment.marks.fill(77);
    assessment.labels.settled.fill(77);
    lists.description.devices.components.fill(77);
    lists.description.evidence.components.fill(77);
    lists
}

fn describe(scene: &raw::Scene, lists: &mut DescriptionLists) -> (u32, u64) {
    let answer = raw::describe_scene(&scene.lend(), &mut lists.lend());
    (answer.number, answer.place)
}

fn assess(scene: &raw::Scene, lists: &mut AssessmentLists) -> (u32, u64) {
    let answer = raw::assess_scene(&scene.lend(), &mut lists.lend());
    (answer.number, answer.place)
}

fn analyze(scene: &raw::Scene, lists: &mut SceneLists) -> (u32, u64) {
    let answer = raw::analyze_scene(&scene.lend(), &mut lists.lend());
    (answer.number, answer.place)
}

/// One torch, and every list long enough but list 3: the part that doesn't write list 3 writes, the one
/// call and the other part write nothing.
#[test]
fn one_part_short() {
    let torch = Scene {
        components: vec![Component::new(1, BlockKind::RedstoneTorch)],
        connections: vec![],
    };
    let scene = torch.lists();
    let mut before = filled(1, 0);
    before.assessment.reasons.resize(2);
    let mut lists = before.clone();
    assert_eq!(analyze(&scene, &mut lists), (7, 3));
    assert_eq!(lists, before);
    assert_eq!(assess(&scene, &mut lists.assessment), (7, 3));
    assert_eq!(lists, before);
    assert_eq!(describe(&scene, &mut lists.description), (0, 0));
    assert_eq!(lists.description.devices.components, [1]);
    assert_eq!(lists.description.evidence.components, [1]);
}

macro_rules! shortened {
    ($($list:literal: $($($field:ident).+),+;)+) => {
        [$($(($list, |lists: &mut SceneLists| {
            lists.$($field).+.pop();
        })),+),+]
    };
}

/// Makes one of the number lists one entry shorter.
type Shorten = fn(&mut SceneLists);

const SHORTENED: [(u64, Shorten); 34] = shortened! {
    0: description.edges.sources, description.edges.sinks, description.edges.minimums,
        description.edges.maximums, description.edges.behaviors;
    1: description.devices.components, description.devices.xs, description.devices.ys,
        description.devices.zs, description.devices.semantics, description.devices.delays;
    2: description.evidence.kinds, description.evidence.sources, description.evidence.sinks,
        description.evidence.components, description.evidence.blocks;
    3: assessment.reasons.kinds, assessment.reasons.components, assessment.reasons.blocks,
        assessment.reasons.minimums, assessment.reasons.maximums;
    4: assessment.feedback_ids;
    5: assessment.marks;
    6: assessment.projected.sources, assessment.projected.sinks, assessment.projected.inverted,
        assessment.projected.minimums, assessment.projected.maximums, assessment.projected.starts,
        assessment.projected.lengths;
    7: assessment.projected.path_ids;
    8: assessment.labels.settled, assessment.labels.lows, assessment.labels.highs;
};

/// Each number list one entry short, and with it the last one: the lower list's number is the place.
#[test]
fn every_list_short() {
    let scene = delayed_lamp().lists();
    let last = SHORTENED[33].1;
    for (list, shorten) in SHORTENED {
        for shorten_last in [false, true] {
            let mut before = filled(3, 2);
            shorten(&mut before);
            if shorten_last {
                last(&mut before);
            }
            let mut lists = before.clone();
            assert_eq!(analyze(&scene, &mut lists), (7, list));
            assert_eq!(lists, before);
        }
    }
}

/// The one call writes and answers what its parts do.
#[test]
fn as_its_parts() {
    let scene = delayed_lamp().lists();
    let (mut one, mut parts) = (filled(3, 2), filled(3, 2));
    let numbers = raw::analyze_scene(&scene.lend(), &mut one.lend());
    let described = raw::describe_scene(&scene.lend(), &mut parts.description.lend());
    let assessed = raw::assess_scene(&scene.lend(), &mut parts.assessment.lend());
    assert_ne!(one, filled(3, 2));
    assert_eq!(one, parts);
    let wanted = raw::AnalysisNumbers {
        number: 0,
        place: 0,
        timed_edges: described.timed_edges,
        devices: described.devices,
        evidence: described.evidence,
        scope: assessed.scope,
        pattern: assessed.pattern,
        confidence: assessed.confidence,
        reasons: assessed.reasons,
        feedback: assessed.feedback,
        retained: assessed.retained,
        compressed: assessed.compressed,
        projected: assessed.projected,
        path_ids: assessed.path_ids,
    };
    assert_eq!(numbers, wanted);
}

/// Lists are lent as slices too, and their entries read through what was lent.
#[test]
fn slices() {
    let scene = delayed_lamp().lists();
    let scene = scene.lend();
    let mut ids = [77; 5];
    let answer = raw::feedback_scene(&scene, &mut ids[1..4]);
    assert_eq!((answer.number, answer.feedback), (0, 0));
    assert_eq!(ids, [77; 5]);
    let mut described = DescriptionLists::with_room(3, 2);
    let mut lent = described.lend();
    let mut sinks = [77; 3];
    lent.edges.sinks = (&mut sinks[..]).into();
    assert_eq!(raw::describe_scene(&scene, &mut lent).number, 0);
    assert_eq!(lent.edges.sources[..], [1, 2]);
    assert_eq!(lent.edges.sinks[..], [2, 3, 77]);
}

#[test]
fn lists_of_other_lengths() {
    let mut scene = raw::Scene::with_room(1, 0);
    let refusal = |scene: &raw::Scene| {
        let answer = raw::feedback_scene(&scene.lend(), &mut []);
        (answer.number, answer.place)
    };
    assert_eq!(refusal(&scene), (7, 4));
    scene.components.ys.push(0);
    assert_eq!(refusal(&scene), (8, 0));
    scene = raw::Scene::default();
    scene.connections.sinks.push(0);
    assert_eq!(refusal(&scene), (8, 1));
    let refusal = |trace: &raw::Trace| {
        let mut none = raw::Findings::default();
        let answer = raw::assess_transients(&trace.lend(), &mut none.lend());
        (answer.number, answer.place)
    };
    let mut trace = raw::Trace::default();
    trace.contracts.units.push(0);
    assert_eq!(refusal(&trace), (8, 3));
    trace.events.ticks.push(0);
    assert_eq!(refusal(&trace), (8, 2));
    assert_eq!(refusal(&raw::Trace::with_room(1, 0)), (7, 9));
}
