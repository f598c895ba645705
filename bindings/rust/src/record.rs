//! A row of traces.
use crate::findings::{Tallies, TransientFinding, finding, push};
use crate::raw::{self, TransientRecord};
use crate::{Refusal, Trace};

/// The traces recorded so far: how many, their findings and the tallies of these.
#[derive(Clone, Debug, Default, Eq, PartialEq)]
pub struct Record {
    held: TransientRecord,
    findings: raw::Findings,
}

/// What one trace added to a record.
#[derive(Clone, Copy, Debug, Eq, PartialEq)]
pub struct Recorded {
    /// How many findings, the last ones of the record.
    pub findings: usize,
    /// How many contracts were given.
    pub contracts_applied: u64,
}

impl Record {
    /// A record without traces.
    pub fn new() -> Self {
        Self::default()
    }

    /// A record as it was stored. Numbers that contradict each other are taken, and then every
    /// recording is refused.
    pub fn restored(traces: u64, tallies: Tallies, findings: &[TransientFinding]) -> Self {
        let mut record = Self::new();
        record.held.traces = traces;
        record.held.findings = findings.len() as u64;
        record.held.tallies = tallies;
        for finding in findings {
            push(&mut record.findings, finding);
        }
        record
    }

    /// Judges every pulse of a trace and adds the findings at the end, or says why the trace is
    /// refused and adds nothing.
    pub fn record_trace(&mut self, trace: &Trace) -> Result<Recorded, Refusal> {
        let held = self.held.findings as usize;
        self.findings.resize(held + trace.events.len());
        let lists = trace.lists();
        let answer = raw::record_trace(self.held, &lists.lend(), &mut self.findings.lend());
        self.held = answer.held;
        self.findings.resize(self.held.findings as usize);
        Refusal::check(answer.number, answer.place)?;
        Ok(Recorded {
            findings: answer.findings as usize,
            contracts_applied: answer.contracts_applied,
        })
    }

    /// How many traces there are.
    pub fn traces(&self) -> u64 {
        self.held.traces
    }

    /// How many findings have each verdict, by its code.
    pub fn tallies(&self) -> Tallies {
        self.held.tallies
    }

    /// The findings of all traces, in the order of these.
    pub fn findings(&self) -> impl ExactSizeIterator<Item = TransientFinding> {
        (0..self.held.findings as usize).map(|i| finding(&self.findings, i))
    }
}
