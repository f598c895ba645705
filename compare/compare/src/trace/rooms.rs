//! Room for list 9: enough, just enough, and one too little.
use generator::rng::Rng;
use generator::trace::lists::TraceLists;
use generator::trace::record::{self, TransientRecord};
use library::traces::FINDING_LISTS;

use super::case::TraceCase;
use super::list9::Lengths;

/// How much longer than needed a number list may be.
const MORE: [usize; 6] = [0, 0, 0, 1, 7, 40];
/// The findings that a record mostly holds at most: list 9 is longer by as many.
const HELD: u64 = 9;

/// A case with room for the findings, often just enough, and a record that takes the trace.
pub fn enough(rng: &mut Rng, lists: TraceLists) -> TraceCase {
    let held = record::open(rng, HELD);
    with_record(rng, lists, held)
}

/// A case with room for the findings and for those that the record holds, if there can be any.
pub fn with_record(rng: &mut Rng, lists: TraceLists, held: TransientRecord) -> TraceCase {
    let mut case = TraceCase {
        lists,
        held,
        assess: [0; FINDING_LISTS],
        record: [0; FINDING_LISTS],
        contents: rng.word(),
    };
    case.assess = lengths(rng, case.assess_need());
    case.record = lengths(rng, case.record_need());
    case
}

/// Each as long as needed, or longer by an amount of its own.
pub fn lengths(rng: &mut Rng, need: usize) -> Lengths {
    [(); FINDING_LISTS].map(|()| need + rng.pick(&MORE))
}

/// A case in which some number lists may be too short, and the record may be full or false.
pub fn doubtful(rng: &mut Rng, lists: TraceLists) -> TraceCase {
    let held = match rng.below(12) {
        0 => record::full(rng),
        1 => record::false_by_one(rng),
        _ => record::open(rng, HELD),
    };
    let mut case = with_record(rng, lists, held);
    let needs = [case.assess_need(), case.record_need()];
    for (lengths, need) in [&mut case.assess, &mut case.record].into_iter().zip(needs) {
        if rng.chance(1, 6) {
            let less = rng.pick(&[1, 1, 1, 2, need]);
            lengths[rng.below(FINDING_LISTS)] = need.saturating_sub(less);
        }
    }
    case
}

/// Every number list, and every two of them, one short, for both calls; the rest just enough or
/// longer.
pub fn all_short(rng: &mut Rng, lists: &TraceLists, held: TransientRecord) -> Vec<TraceCase> {
    let mut cases = Vec::new();
    for a in 0..FINDING_LISTS {
        for b in a..FINDING_LISTS {
            let mut case = with_record(rng, lists.clone(), held);
            for k in [a, b] {
                case.assess[k] = case.assess_need().saturating_sub(1);
                case.record[k] = case.record_need().saturating_sub(1);
            }
            cases.push(case);
        }
    }
    cases
}
