//! Counts of what a run has reached.
use std::collections::BTreeMap;
use std::fmt::{self, Display, Formatter};

use compare::reached::{WANTED, shown};
use compare::tally::{Families, Refusals, counts_of, listed};

use crate::answer::Answer;

/// Of one family.
#[derive(Default)]
struct Counts {
    texts: usize,
    reports: usize,
    broken: usize,
}

#[derive(Default)]
pub struct Tally {
    families: Families<Counts>,
    refusals: Refusals,
    shown: BTreeMap<&'static str, usize>,
}

/// The refusals that a text can have.
const NUMBERS: [u32; 7] = [1, 2, 3, 4, 5, 6, 14];

/// A text as long as it may be has no room for this.
const TOO_LARGE: &str = "512 components, 2,048 connections";

impl Tally {
    pub fn add(&mut self, family: &'static str, answer: &Answer) {
        let counts = counts_of(&mut self.families, family);
        counts.texts += 1;
        match answer {
            Answer::Refused(refusal) => {
                counts.broken += usize::from(refusal.0 == 14);
                self.refusals.add(Some(*refusal));
            }
            Answer::Reported(accepted) => {
                counts.reports += 1;
                for name in shown(&accepted.0, &accepted.1) {
                    *self.shown.entry(name).or_default() += 1;
                }
            }
        }
    }

    /// What a run must have reached and has not: every refusal, 14 at the length, at the first line
    /// and behind the last, the largest sizes and a component more, and what an answer can show.
    pub fn missing(&self) -> Vec<String> {
        let places = [
            (14, 0),
            (14, 1),
            (14, 2),
            (14, 12),
            (14, 13),
            (1, 513),
            (1, 600),
            (2, 2049),
        ];
        let mut missing = self.refusals.missing("report", NUMBERS, places);
        let unseen = WANTED.iter().filter(|name| **name != TOO_LARGE);
        let unseen = unseen.filter(|name| !self.shown.contains_key(*name));
        missing.extend(unseen.map(|name| format!("no report showed '{name}'")));
        missing
    }
}

impl Display for Tally {
    fn fmt(&self, out: &mut Formatter) -> fmt::Result {
        writeln!(
            out,
            "family                             texts   reports  refused by 14  by 1 to 6"
        )?;
        let mut total = 0;
        for (name, counts) in &self.families {
            let (texts, reports, broken) = (counts.texts, counts.reports, counts.broken);
            let others = texts - reports - broken;
            writeln!(
                out,
                "{name:<32}{texts:>8}{reports:>10}{broken:>15}{others:>11}"
            )?;
            total += texts;
        }
        writeln!(out, "all                             {total:>8}")?;
        writeln!(out, "refusals: {}", self.refusals)?;
        write!(out, "reports that show {}", listed(&self.shown))
    }
}
