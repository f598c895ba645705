//! "Recording".
use generator::trace::lists::TraceLists;
use generator::trace::record::TransientRecord;

use super::{Answer, Refusal, trace_refusal};

/// "the list needs findings held plus events"; a sum past the largest word is needed by no call,
/// since a record that holds so many is refused first.
pub fn recording_need(held: &TransientRecord, lists: &TraceLists) -> u64 {
    held.findings.saturating_add(lists.ticks.len() as u64)
}

/// "Recording puts 15, then 13 first."
pub fn recording_refusal(
    held: &TransientRecord,
    lists: &TraceLists,
    room: &[usize],
) -> Option<Refusal> {
    if is_false(held) {
        return Some((15, 0));
    }
    if held.traces >= 64 {
        return Some((13, 0));
    }
    trace_refusal(lists, recording_need(held, lists), room)
}

/// "A record is false if its tallies don't sum to findings held, or findings exceed 4,096 times
/// traces, both in whole numbers that don't wrap."
fn is_false(held: &TransientRecord) -> bool {
    let sum: u128 = held.tallies.iter().map(|tally| u128::from(*tally)).sum();
    let findings = u128::from(held.findings);
    sum != findings || findings > 4096 * u128::from(held.traces)
}

/// "Traces, findings and tallies grow by this trace's."
pub fn grown(held: &TransientRecord, answer: &Answer) -> TransientRecord {
    let mut tallies = held.tallies;
    for (tally, more) in tallies.iter_mut().zip(answer.tallies) {
        *tally += more;
    }
    TransientRecord {
        traces: held.traces + 1,
        findings: held.findings + answer.findings.len() as u64,
        tallies,
    }
}
