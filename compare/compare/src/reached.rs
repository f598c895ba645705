//! What an accepted scene's answer shows, so that a run can say what it has seen.
use std::collections::BTreeSet;

use generator::lists::{SUPPORT, SceneLists};
use library::assessment::AssessNumbers;

use crate::calls::AssessEntries;
use crate::document::Refusal;
use crate::expected::Expected;

/// What answers show; each must be seen in a run.
pub const WANTED: [&str; 21] = [
    "scope 0",
    "scope 1",
    "scope 2",
    "pattern 0",
    "pattern 1",
    "pattern 2",
    "pattern 3",
    "Feedback",
    "stateful device",
    "locked repeater",
    "unequal delays, settled",
    "unequal delays, unsettled",
    "sums above 100,000",
    "an unsettled component",
    "a ring of compressed components",
    "an inverted edge",
    "a path of ten or more",
    "a projected edge to its source",
    "equal projected edges",
    "a support of absent ids",
    "512 components, 2,048 connections",
];

/// What the two parts of the one call say, on lists of the same lengths; each must be seen in a run.
pub const TOGETHER: [&str; 7] = [
    "both parts accept",
    "both parts refuse alike",
    "lists 0 to 2 written alone",
    "lists 3 to 8 written alone",
    "lists of both parts too short",
    "lists 0 to 2 too short, a fault in a row",
    "lists 3 to 8 too short, a fault in a row",
];

/// The name above that is theirs.
pub fn together(refusals: [Option<Refusal>; 2]) -> &'static str {
    let short = refusals.map(|refusal| refusal.is_some_and(|(number, _)| number == 7));
    let accepted = refusals.map(|refusal| refusal.is_none());
    TOGETHER[match (accepted, short) {
        ([true, true], _) => 0,
        (_, [false, false]) => 1,
        ([true, _], _) => 2,
        ([_, true], _) => 3,
        (_, [true, true]) => 4,
        (_, [true, _]) => 5,
        _ => 6,
    }]
}

/// The names of `WANTED` that the answer shows.
pub fn shown(lists: &SceneLists, expected: &Expected) -> Vec<&'static str> {
    let entries = &expected.assessed.entries;
    let numbers = &expected.assessed.numbers;
    let mut shown = vec![
        WANTED[usize::from(numbers.scope)],
        WANTED[3 + usize::from(numbers.pattern)],
    ];
    let mut add = |name, shows: bool| shown.extend(shows.then_some(name));
    for (name, shows) in of_reasons(lists, entries) {
        add(name, shows);
    }
    for (name, shows) in of_projection(entries, numbers) {
        add(name, shows);
    }
    let (n, m) = (lists.ids.len(), lists.sources.len());
    add("an unsettled component", entries.label_settled.contains(&0));
    add("a support of absent ids", absent_support(lists));
    add("512 components, 2,048 connections", n == 512 && m == 2048);
    shown
}

fn of_reasons(lists: &SceneLists, entries: &AssessEntries) -> [(&'static str, bool); 6] {
    let kinds = &entries.reason_kinds;
    let unequal = |settled: u8| {
        let reasons = kinds.iter().zip(&entries.reason_components);
        let mut ids = reasons.filter(|(kind, _)| **kind == 0).map(|(_, id)| id);
        ids.any(|id| {
            let position = lists.ids.iter().position(|other| other == id);
            position.is_some_and(|v| entries.label_settled[v] == settled)
        })
    };
    let high = entries.label_highs.iter().any(|sum| *sum > 100_000);
    [
        ("Feedback", kinds.contains(&1)),
        ("stateful device", kinds.contains(&2)),
        ("locked repeater", kinds.contains(&3)),
        ("unequal delays, settled", unequal(1)),
        ("unequal delays, unsettled", unequal(0)),
        ("sums above 100,000", high),
    ]
}

fn of_projection(entries: &AssessEntries, numbers: &AssessNumbers) -> [(&'static str, bool); 5] {
    let projected = entries.projected();
    let different: BTreeSet<_> = projected.iter().collect();
    let round = projected.iter().any(|edge| edge.source == edge.sink);
    let met: BTreeSet<_> = entries.path_ids.iter().collect();
    let on_paths = met.len() as u64;
    // a compressed component is on no path exactly if it is on a ring of such
    let ends: BTreeSet<_> = projected.iter().flat_map(|e| [e.source, e.sink]).collect();
    let between = on_paths - ends.len() as u64;
    [
        (
            "a ring of compressed components",
            between < numbers.compressed,
        ),
        (
            "an inverted edge",
            projected.iter().any(|edge| edge.inverted),
        ),
        (
            "a path of ten or more",
            projected.iter().any(|edge| edge.path.len() > 9),
        ),
        ("a projected edge to its source", round),
        ("equal projected edges", different.len() < projected.len()),
    ]
}

fn absent_support(lists: &SceneLists) -> bool {
    (0..lists.transfers.len())
        .any(|i| lists.transfers[i] == SUPPORT && !lists.ids.contains(&lists.sources[i]))
}
