//! A whole recording: one trace after the other goes into a fresh record, and all their findings
//! into one list 9.
use std::fmt::{self, Display, Formatter};

use dustroute_ir::TemporalAnalysis;
use generator::rng::Rng;
use generator::trace::lists::TraceLists;
use generator::trace::record::TransientRecord;
use library::traces::record_trace;
use plain::trace::{Answer, Finding, Refusal, recording_refusal};

use super::case::Shown;
use super::expected::same_answer;
use super::list9::{FindingLists, Lengths};
use super::rust;
use super::sides::{RECORD, recorded_numbers};
use crate::difference::{Difference, equal};

#[derive(Clone)]
pub struct Recording {
    pub traces: Vec<TraceLists>,
    /// The lengths of the number lists, the same for every trace.
    pub lengths: Lengths,
    /// Gives the lent lists their contents.
    pub contents: u64,
}

/// What all sides agree on: the refusal of each trace, if any, and the record in the end.
pub struct Recorded {
    pub refusals: Vec<Option<Refusal>>,
    pub held: TransientRecord,
}

pub fn compare(recording: &Recording) -> Result<Recorded, Difference> {
    let mut analysis = rust::no_traces();
    let mut lent = FindingLists::lend(&mut Rng::new(recording.contents), &recording.lengths);
    let mut held = TransientRecord::default();
    let mut findings = Vec::new();
    let mut refusals = Vec::new();
    for lists in &recording.traces {
        let refusal = recording_refusal(&held, lists, &recording.lengths);
        let answer = match refusal {
            None => Some(rust::recorded(&mut analysis, lists)),
            Some(_) => None,
        };
        let got = record_trace(held, lists, &mut lent.lists());
        equal(
            RECORD,
            &recorded_numbers(&held, refusal, answer.as_ref()),
            &got,
        )?;
        findings.extend(answer.into_iter().flat_map(|answer| answer.findings));
        // those of earlier traces stay where they are
        let holds = lent.hold(0, &findings);
        holds.map_err(|told| Difference::new(RECORD, &told))?;
        held = got.held;
        refusals.push(refusal);
    }
    as_the_rust(&analysis, &held, findings)?;
    Ok(Recorded { refusals, held })
}

/// What the Rust's analysis holds in the end: as many traces, and over all of them the findings in
/// order and the counts.
fn as_the_rust(
    analysis: &TemporalAnalysis,
    held: &TransientRecord,
    findings: Vec<Finding>,
) -> Result<(), Difference> {
    const WHAT: &str = "a whole recording";
    let mut all = Answer {
        findings: Vec::new(),
        tallies: [0; 5],
        contracts_applied: 0,
    };
    for answer in analysis.transients.iter().map(rust::answer) {
        all.findings.extend(answer.findings);
        all.contracts_applied += answer.contracts_applied;
        for (tally, more) in all.tallies.iter_mut().zip(answer.tallies) {
            *tally += more;
        }
    }
    let count = findings.len() as u64;
    let written = Answer {
        findings,
        tallies: held.tallies,
        contracts_applied: all.contracts_applied,
    };
    same_answer(WHAT, &all, &written)?;
    equal(WHAT, &count, &held.findings)?;
    let traces = [analysis.behavior.traces.len(), analysis.transients.len()];
    equal(WHAT, &traces.map(|count| count as u64), &[held.traces; 2])
}

impl Display for Recording {
    fn fmt(&self, out: &mut Formatter) -> fmt::Result {
        for (k, lists) in self.traces.iter().enumerate() {
            writeln!(out, "trace {k}:\n{}", Shown(lists))?;
        }
        writeln!(out, "{} traces", self.traces.len())?;
        writeln!(out, "lengths of list 9: {:?}", self.lengths)?;
        write!(out, "contents of the lent lists: {}", self.contents)
    }
}
