//! "The fifteen refusals": those of a trace.
use generator::trace::lists::{Contract, EVENT_LISTS, TraceLists};

/// A refusal's number and place.
pub type Refusal = (u32, u64);

/// The refusal of a call that is lent number lists of such lengths for list 9, each of which needs
/// `need` entries: "8, 9, 10, 7, 11 for unit, then events, then contracts one by one (11 then 12)".
pub fn trace_refusal(lists: &TraceLists, need: u64, room: &[usize]) -> Option<Refusal> {
    let (events, contracts) = (lists.ticks.len(), lists.contract_components.len());
    sizes(lists)
        .or_else(|| {
            room.iter()
                .any(|length| (*length as u64) < need)
                .then_some((7, 9))
        })
        .or_else(|| (lists.unit > 1).then_some((11, 0)))
        .or_else(|| (0..events).find_map(|i| (lists.powered[i] > 1).then_some((11, i as u64))))
        .or_else(|| (0..contracts).find_map(|i| contract_refusal(lists, i)))
}

fn sizes(lists: &TraceLists) -> Option<Refusal> {
    let (events, contracts) = (lists.ticks.len(), lists.contract_components.len());
    let lengths = lists.lengths();
    let (of_events, of_contracts) = lengths.split_at(EVENT_LISTS);
    if of_events.iter().any(|length| *length != events) {
        return Some((8, 2));
    }
    if of_contracts.iter().any(|length| *length != contracts) {
        return Some((8, 3));
    }
    if events > 4096 {
        return Some((9, events as u64));
    }
    (contracts > 512).then_some((10, contracts as u64))
}

fn contract_refusal(lists: &TraceLists, i: usize) -> Option<Refusal> {
    if out_of_range(lists.contract(i)) {
        return Some((11, i as u64));
    }
    let components = &lists.contract_components;
    (i > 0 && components[i] <= components[i - 1]).then_some((12, i as u64))
}

/// "fields an intent doesn't use are not read, so 11 passes over them"
fn out_of_range(contract: Contract) -> bool {
    match contract.intent {
        0 => false,
        1 => contract.powered > 1,
        2 | 3 => contract.polarity > 1 || contract.unit > 1,
        _ => true,
    }
}
