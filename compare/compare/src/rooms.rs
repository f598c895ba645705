//! Room for the output lists: enough, just enough, and one too little.
use generator::lists::SceneLists;
use generator::rng::Rng;
use generator::small::rows;

use crate::calls::{AnalyzeLists, AssessLists, DescribeLists, SceneCall};
use crate::case::Case;
use crate::document::need;

/// First list numbers: every list, one past them, and ones whose successors don't fit a word.
pub const FIRSTS: [usize; 13] = [0, 1, 2, 3, 4, 5, 6, 7, 8, 9, 10, usize::MAX - 1, usize::MAX];

/// How much longer than needed a list may be.
const MORE: [usize; 6] = [0, 0, 0, 1, 7, 40];

/// A case in which every list has just the length it needs; the check tests none.
fn tight(rng: &mut Rng, lists: SceneLists) -> Case {
    let (n, m) = (lists.ids.len(), lists.sources.len());
    let needs = |lists: &[usize]| lists.iter().map(|list| need(n, m, *list)).collect();
    Case {
        lists,
        first: 0,
        room: Vec::new(),
        feedback: n,
        describe: needs(DescribeLists::LISTS),
        assess: needs(AssessLists::LISTS),
        analyze: needs(AnalyzeLists::LISTS),
        contents: rng.word(),
    }
}

/// What the check's list k needs, and 0 past the last list number.
fn check_need(case: &Case, k: usize) -> usize {
    case.first.checked_add(k).map_or(0, |list| case.need(list))
}

/// A case with room for every answer, often just enough.
pub fn enough(rng: &mut Rng, lists: SceneLists) -> Case {
    let mut case = tight(rng, lists);
    case.first = rng.pick(&FIRSTS);
    let count = rng.below(12);
    case.room = (0..count)
        .map(|k| check_need(&case, k) + rng.pick(&MORE))
        .collect();
    case.feedback += rng.pick(&MORE);
    let parts = case.describe.iter_mut().chain(&mut case.assess);
    for length in parts.chain(&mut case.analyze) {
        *length += rng.pick(&MORE);
    }
    case
}

/// A case with room enough, but for some output lists: each of their number lists is one short.
pub fn short(rng: &mut Rng, scene: SceneLists, lists: &[usize]) -> Case {
    let mut case = enough(rng, scene);
    let (n, m) = (case.lists.ids.len(), case.lists.sources.len());
    let calls = [
        (DescribeLists::LISTS, &mut case.describe),
        (AssessLists::LISTS, &mut case.assess),
        (AnalyzeLists::LISTS, &mut case.analyze),
    ];
    for (numbers, lengths) in calls {
        for (list, length) in numbers.iter().zip(lengths) {
            if lists.contains(list) {
                *length = need(n, m, *list).saturating_sub(1);
            }
        }
    }
    case
}

/// A case in which some lists may be too short.
pub fn doubtful(rng: &mut Rng, lists: SceneLists) -> Case {
    let mut case = enough(rng, lists);
    for k in 0..case.room.len() {
        if rng.chance(1, 12) {
            case.room[k] = check_need(&case, k).saturating_sub(1);
        }
    }
    if rng.chance(1, 12) {
        case.feedback = case.lists.ids.len().saturating_sub(1);
    }
    let (n, m) = (case.lists.ids.len(), case.lists.sources.len());
    shorten_some(rng, n, m, DescribeLists::LISTS, &mut case.describe);
    shorten_some(rng, n, m, AssessLists::LISTS, &mut case.assess);
    shorten_some(rng, n, m, AnalyzeLists::LISTS, &mut case.analyze);
    case
}

/// Half of the time, makes some number lists shorter than needed, mostly by one.
fn shorten_some(rng: &mut Rng, n: usize, m: usize, lists: &[usize], lengths: &mut [usize]) {
    if rng.chance(1, 2) {
        return;
    }
    for (list, length) in lists.iter().zip(lengths) {
        if rng.chance(1, 8) {
            let need = need(n, m, *list);
            let less = rng.pick(&[1, 1, 1, 2, need]);
            *length = need.saturating_sub(less);
        }
    }
}

/// For the check and list 4: every first list number with up to four lists, each one short, just
/// enough or one longer, and the lists 0 to 8 with each two of them one short.
pub fn all_of_check(rng: &mut Rng, lists: &SceneLists) -> Vec<Case> {
    let mut cases = Vec::new();
    for first in FIRSTS {
        for length in 0..=4 {
            for steps in rows(&[-1, 0, 1], length) {
                cases.push(stepped(rng, lists, first, &steps));
            }
        }
    }
    for a in 0..9 {
        for b in 0..9 {
            let mut steps = [0; 9];
            steps[a] = -1;
            steps[b] = -1;
            cases.push(stepped(rng, lists, 0, &steps));
        }
    }
    cases
}

/// Lists whose lengths are so many steps from their needs; list 4 is as far from its own as the
/// first of them.
fn stepped(rng: &mut Rng, lists: &SceneLists, first: usize, steps: &[isize]) -> Case {
    let mut case = tight(rng, lists.clone());
    case.first = first;
    let room = steps.iter().enumerate();
    case.room = room
        .map(|(k, step)| check_need(&case, k).saturating_add_signed(*step))
        .collect();
    let step = steps.first().copied().unwrap_or(0);
    case.feedback = case.feedback.saturating_add_signed(step);
    case
}

/// For the parts and the one call: every number list, and every two of them, one short; the rest just
/// enough or longer.
pub fn all_of_calls(rng: &mut Rng, lists: &SceneLists) -> Vec<Case> {
    let first = DescribeLists::LISTS.len();
    let mut cases = Vec::new();
    for a in 0..AnalyzeLists::LISTS.len() {
        for b in a..AnalyzeLists::LISTS.len() {
            let mut case = enough(rng, lists.clone());
            for k in [a, b] {
                let length = case.need(AnalyzeLists::LISTS[k]).saturating_sub(1);
                case.analyze[k] = length;
                match k.checked_sub(first) {
                    None => case.describe[k] = length,
                    Some(k) => case.assess[k] = length,
                }
            }
            cases.push(case);
        }
    }
    cases
}
