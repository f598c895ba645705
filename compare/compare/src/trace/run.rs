//! Runs one case of a family, or one recording.
use super::builds::{Build, brief};
use super::case::TraceCase;
use super::order::same_findings;
use super::recording::{self, Recorded, Recording};
use super::sides::{Agreed, compare};
use super::tally::TraceTally;
use crate::run::{agreeing, as_known, compared};

/// Compares a case and counts it.
pub fn run(
    tally: &mut TraceTally,
    family: &'static str,
    case: &TraceCase,
) -> Result<Agreed, String> {
    let agreed = compared(family, case, compare)?;
    tally.add(family, &case.lists, &agreed);
    Ok(agreed)
}

pub fn run_recording(
    tally: &mut TraceTally,
    family: &'static str,
    recording: &Recording,
) -> Result<Recorded, String> {
    let recorded = compared(family, recording, recording::compare)?;
    tally.add_recording(family, &recorded);
    Ok(recorded)
}

/// A trace of document 01, whose answer is known beforehand.
pub fn run_build(tally: &mut TraceTally, build: &Build, case: &TraceCase) -> Result<(), String> {
    let agreed = run(tally, "traces of document 01", case)?;
    as_known(agreed.answer.as_ref().map(brief), build.answer, case)
}

/// Two cases of the same events in different orders, with room for all findings; `moved` says where
/// each event of the first is in the second.
pub fn run_orders(
    tally: &mut TraceTally,
    families: [&'static str; 2],
    cases: [&TraceCase; 2],
    moved: &[usize],
) -> Result<(), String> {
    let one = run(tally, families[0], cases[0])?.answer;
    let other = run(tally, families[1], cases[1])?.answer;
    agreeing(families[0], cases, [one, other], |one, other| {
        same_findings(one, other, moved)
    })
}
