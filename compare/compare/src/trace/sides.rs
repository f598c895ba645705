//! A case asked of all sides, by both calls.
use generator::rng::Rng;
use generator::trace::record::TransientRecord;
use library::traces::{AssessedTrace, RecordedTrace, assess_transients, record_trace};
use plain::trace::{Answer, Finding, Refusal, grown, recording_refusal, trace_refusal};

use super::case::TraceCase;
use super::expected::expected;
use super::list9::FindingLists;
use crate::difference::{Difference, equal};

pub const ASSESS: &str = "sizhbanto_assess_transients";
pub const RECORD: &str = "sizhbanto_record_trace";

/// What all sides agree on: the refusal of each call, if any, and the answer of a trace that
/// nothing but want of room or its record can have refused.
pub struct Agreed {
    pub assess: Option<Refusal>,
    pub record: Option<Refusal>,
    pub answer: Option<Answer>,
}

pub fn compare(case: &TraceCase) -> Result<Agreed, Difference> {
    let answer = expected(&case.lists)?;
    let rng = &mut Rng::new(case.contents);
    let assess = compare_assess(case, rng, answer.as_ref())?;
    let record = compare_record(case, rng, answer.as_ref())?;
    Ok(Agreed {
        assess,
        record,
        answer,
    })
}

/// The answer of a call that is not refused.
fn accepted(refusal: Option<Refusal>, answer: Option<&Answer>) -> Option<&Answer> {
    let accepted = answer.filter(|_| refusal.is_none());
    assert!(
        refusal.is_some() || accepted.is_some(),
        "no answer, no refusal"
    );
    accepted
}

fn compare_assess(
    case: &TraceCase,
    rng: &mut Rng,
    answer: Option<&Answer>,
) -> Result<Option<Refusal>, Difference> {
    let refusal = trace_refusal(&case.lists, case.assess_need() as u64, &case.assess);
    let answer = accepted(refusal, answer);
    let mut lent = FindingLists::lend(rng, &case.assess);
    let got = assess_transients(&case.lists, &mut lent.lists());
    equal(ASSESS, &assessed_numbers(refusal, answer), &got)?;
    hold(ASSESS, &lent, 0, answer)?;
    Ok(refusal)
}

fn compare_record(
    case: &TraceCase,
    rng: &mut Rng,
    answer: Option<&Answer>,
) -> Result<Option<Refusal>, Difference> {
    let refusal = recording_refusal(&case.held, &case.lists, &case.record);
    let answer = accepted(refusal, answer);
    let mut lent = FindingLists::lend(rng, &case.record);
    let got = record_trace(case.held, &case.lists, &mut lent.lists());
    equal(RECORD, &recorded_numbers(&case.held, refusal, answer), &got)?;
    hold(RECORD, &lent, case.held.findings, answer)?;
    Ok(refusal)
}

/// The answer's findings from `start` on; under a refusal every list keeps its contents.
fn hold(
    call: &str,
    lent: &FindingLists,
    start: u64,
    answer: Option<&Answer>,
) -> Result<(), Difference> {
    let (start, findings): (_, &[Finding]) = match answer {
        Some(answer) => (start as usize, &answer.findings),
        None => (0, &[]),
    };
    let held = lent.hold(start, findings);
    held.map_err(|told| Difference::new(call, &told))
}

/// Under a refusal all other numbers are 0.
fn assessed_numbers(refusal: Option<Refusal>, answer: Option<&Answer>) -> AssessedTrace {
    let (number, place) = refusal.unwrap_or_default();
    let refused = AssessedTrace {
        number,
        place,
        ..AssessedTrace::default()
    };
    answer.map_or(refused, |answer| AssessedTrace {
        findings: answer.findings.len() as u64,
        contracts_applied: answer.contracts_applied,
        tallies: answer.tallies,
        ..refused
    })
}

/// The numbers of this trace, and the record grown by them; under a refusal it is as it was.
pub fn recorded_numbers(
    held: &TransientRecord,
    refusal: Option<Refusal>,
    answer: Option<&Answer>,
) -> RecordedTrace {
    let AssessedTrace {
        number,
        place,
        findings,
        contracts_applied,
        ..
    } = assessed_numbers(refusal, answer);
    RecordedTrace {
        number,
        place,
        findings,
        contracts_applied,
        held: answer.map_or(*held, |answer| grown(held, answer)),
    }
}
