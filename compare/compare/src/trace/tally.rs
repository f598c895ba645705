//! Counts of what a run has reached by traces.
use std::collections::BTreeMap;
use std::fmt::{self, Display, Formatter};

use generator::trace::lists::TraceLists;
use plain::trace::Refusal;

use super::reached::{BETWEEN, FULL, shown, wanted};
use super::recording::Recorded;
use super::sides::Agreed;
use crate::tally::{Families, Refusals, counts_of, listed};

/// Of one family. A recording counts as many cases as it has traces.
#[derive(Default)]
struct Counts {
    cases: usize,
    accepted: usize,
    findings: u64,
}

#[derive(Default)]
pub struct TraceTally {
    families: Families<Counts>,
    assess: Refusals,
    record: Refusals,
    shown: BTreeMap<&'static str, usize>,
}

impl TraceTally {
    pub fn add(&mut self, family: &'static str, lists: &TraceLists, agreed: &Agreed) {
        self.assess.add(agreed.assess);
        self.record.add(agreed.record);
        let counts = counts_of(&mut self.families, family);
        counts.cases += 1;
        if let (None, Some(answer)) = (agreed.assess, &agreed.answer) {
            counts.accepted += 1;
            counts.findings += answer.findings.len() as u64;
            for name in shown(lists, answer) {
                self.show(name);
            }
        }
    }

    pub fn add_recording(&mut self, family: &'static str, recorded: &Recorded) {
        let refusals = &recorded.refusals;
        for refusal in refusals {
            self.record.add(*refusal);
        }
        let counts = counts_of(&mut self.families, family);
        counts.cases += refusals.len();
        counts.accepted += recorded.held.traces as usize;
        counts.findings += recorded.held.findings;
        if refusals.contains(&Some((13, 0))) {
            self.show(FULL);
        }
        if refused_between(refusals) {
            self.show(BETWEEN);
        }
    }

    fn show(&mut self, name: &'static str) {
        *self.shown.entry(name).or_default() += 1;
    }

    /// What a run must have reached and has not; a comparison of nothing proves nothing.
    pub fn missing(&self) -> Vec<String> {
        let places = [(7, 9), (8, 2), (8, 3)];
        let mut missing = self.assess.missing("the trace call", 7..=12, places);
        let numbers = (7..=13).chain([15]);
        missing.extend(self.record.missing("the recording", numbers, places));
        let unseen = wanted().filter(|name| !self.shown.contains_key(name));
        missing.extend(unseen.map(|name| format!("no trace showed '{name}'")));
        missing
    }
}

/// Whether one was refused after one was taken and before another one was.
fn refused_between(refusals: &[Option<Refusal>]) -> bool {
    let first = refusals.iter().position(Option::is_none);
    let last = refusals.iter().rposition(Option::is_none);
    let (Some(first), Some(last)) = (first, last) else {
        return false;
    };
    refusals[first..last].iter().any(Option::is_some)
}

impl Display for TraceTally {
    fn fmt(&self, out: &mut Formatter) -> fmt::Result {
        writeln!(out, "family                     cases  accepted  findings")?;
        let mut total = 0;
        for (name, counts) in &self.families {
            let (cases, accepted, findings) = (counts.cases, counts.accepted, counts.findings);
            writeln!(out, "{name:<24}{cases:>8}{accepted:>10}{findings:>10}")?;
            total += cases;
        }
        writeln!(out, "all traces              {total:>8}")?;
        writeln!(out, "refusals by the trace call: {}", self.assess)?;
        writeln!(out, "refusals by the recording: {}", self.record)?;
        write!(out, "traces that show {}", listed(&self.shown))
    }
}
