//! Counts of what a run has reached by scenes.
use std::collections::{BTreeMap, BTreeSet};
use std::fmt::{self, Display, Formatter};

use generator::lists::SceneLists;

use crate::calls::{AnalyzeLists, AssessLists, DescribeLists, SceneCall};
use crate::document::Refusal;
use crate::reached::{TOGETHER, WANTED, shown, together};
use crate::sides::Agreed;

/// Of one family.
#[derive(Default)]
struct Counts {
    cases: usize,
    accepted: usize,
    with_feedback: usize,
    with_unequal: usize,
}

/// The counts of each family, in the order in which the families came.
pub type Families<C> = Vec<(&'static str, C)>;

/// Those of one family; a new one comes last.
pub fn counts_of<'a, C: Default>(families: &'a mut Families<C>, family: &'static str) -> &'a mut C {
    let known = families.iter().position(|(name, _)| *name == family);
    let at = known.unwrap_or_else(|| {
        families.push((family, C::default()));
        families.len() - 1
    });
    &mut families[at].1
}

/// Of one call: how often it refused by each number, and where.
#[derive(Default)]
pub struct Refusals {
    numbers: BTreeMap<u32, usize>,
    places: BTreeSet<Refusal>,
}

impl Refusals {
    pub fn add(&mut self, refusal: Option<Refusal>) {
        if let Some((number, place)) = refusal {
            *self.numbers.entry(number).or_default() += 1;
            self.places.insert((number, place));
        }
    }

    /// Which of these numbers and places the call has not reached.
    pub fn missing(
        &self,
        call: &str,
        numbers: impl IntoIterator<Item = u32>,
        places: impl IntoIterator<Item = Refusal>,
    ) -> Vec<String> {
        let numbers = numbers.into_iter();
        let numbers = numbers.filter(|number| !self.numbers.contains_key(number));
        let numbers = numbers.map(|number| format!("{call} reached no refusal {number}"));
        let places: BTreeSet<_> = places.into_iter().collect();
        let places = places.difference(&self.places);
        let places = places
            .map(|(number, place)| format!("{call} reached no refusal {number} at place {place}"));
        numbers.chain(places).collect()
    }
}

impl Display for Refusals {
    fn fmt(&self, out: &mut Formatter) -> fmt::Result {
        write!(out, "{}", listed(&self.numbers))
    }
}

const CALLS: [&str; 5] = ["check", "feedback", "describe", "assess", "analyze"];

#[derive(Default)]
pub struct Tally {
    families: Families<Counts>,
    refusals: [Refusals; 5],
    shown: BTreeMap<&'static str, usize>,
    together: BTreeMap<&'static str, usize>,
}

impl Tally {
    pub fn add(&mut self, family: &'static str, lists: &SceneLists, agreed: &Agreed) {
        let calls = [
            agreed.check,
            agreed.feedback,
            agreed.describe,
            agreed.assess,
            agreed.analyze,
        ];
        for (refusals, refusal) in self.refusals.iter_mut().zip(calls) {
            refusals.add(refusal);
        }
        *self.together.entry(together(agreed.parts)).or_default() += 1;
        let counts = counts_of(&mut self.families, family);
        counts.cases += 1;
        if let (None, Some(expected)) = (agreed.analyze, &agreed.expected) {
            let kinds = &expected.assessed.entries.reason_kinds;
            counts.accepted += 1;
            counts.with_feedback += usize::from(kinds.contains(&1));
            counts.with_unequal += usize::from(kinds.contains(&0));
            for name in shown(lists, expected) {
                *self.shown.entry(name).or_default() += 1;
            }
        }
    }

    /// What a run must have reached and has not; a comparison of nothing proves nothing.
    pub fn missing(&self) -> Vec<String> {
        let all = AnalyzeLists::LISTS;
        let lists: [&[usize]; 5] = [all, &[4], DescribeLists::LISTS, AssessLists::LISTS, all];
        let mut missing = Vec::new();
        for ((call, refusals), lists) in CALLS.iter().zip(&self.refusals).zip(lists) {
            let places = lists.iter().map(|list| (7, *list as u64));
            missing.extend(refusals.missing(call, 1..=8, places.chain([(8, 0), (8, 1)])));
        }
        let unseen = WANTED.iter().filter(|name| !self.shown.contains_key(*name));
        missing.extend(unseen.map(|name| format!("no answer showed '{name}'")));
        let unseen = TOGETHER
            .iter()
            .filter(|name| !self.together.contains_key(*name));
        missing.extend(unseen.map(|name| format!("no case had '{name}'")));
        missing
    }
}

impl Display for Tally {
    fn fmt(&self, out: &mut Formatter) -> fmt::Result {
        writeln!(
            out,
            "family                     cases  accepted  with Feedback  with unequal delays"
        )?;
        let mut total = 0;
        for (name, counts) in &self.families {
            let (cases, accepted) = (counts.cases, counts.accepted);
            let (feedback, unequal) = (counts.with_feedback, counts.with_unequal);
            writeln!(
                out,
                "{name:<24}{cases:>8}{accepted:>10}{feedback:>15}{unequal:>21}"
            )?;
            total += cases;
        }
        writeln!(out, "all                     {total:>8}")?;
        for (call, refusals) in CALLS.iter().zip(&self.refusals) {
            writeln!(out, "refusals by {call}: {refusals}")?;
        }
        writeln!(out, "scenes that show {}", listed(&self.shown))?;
        write!(
            out,
            "the one call beside its parts: {}",
            listed(&self.together)
        )
    }
}

pub fn listed<K: Display>(counts: &BTreeMap<K, usize>) -> String {
    let shown: Vec<_> = counts
        .iter()
        .map(|(name, count)| format!("{name}: {count}"))
        .collect();
    shown.join(", ")
}
