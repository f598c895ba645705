//! What the calls have to answer to a scene that is accepted. The Rust decides; the rules'
//! words are held against it, and give the labels, which it does not have.
use generator::lists::SceneLists;

use crate::answer::{Analyzed, Assessed, Described, analyze_numbers};
use crate::calls::AnalyzeEntries;
use crate::difference::{Difference, equal};
use crate::{document, rust};

pub struct Expected {
    pub described: Described,
    pub assessed: Assessed,
}

impl Expected {
    /// What the one call has to answer: both.
    pub fn analyzed(&self) -> Analyzed {
        let (described, assessed) = (&self.described, &self.assessed);
        Analyzed {
            numbers: analyze_numbers(described.numbers, assessed.numbers),
            entries: AnalyzeEntries {
                description: described.entries.clone(),
                assessment: assessed.entries.clone(),
            },
        }
    }
}

/// Nothing where the scene is refused whatever is lent.
pub fn expected(lists: &SceneLists) -> Result<Option<Expected>, Difference> {
    if document::expected_refusal(lists, &[]).is_some() {
        return Ok(None);
    }
    let analysis = rust::analysis(lists);
    let described = rust::described(&analysis);
    let mut assessed = rust::assessed(&analysis, &lists.ids);
    let what = "the Rust and document 01";
    if let Some(part) = rust::left_out(&analysis, lists, &assessed.entries.feedback_ids) {
        return Err(Difference::new(what, part));
    }

    let words = document::described(lists);
    equal(what, &words.numbers, &described.numbers)?;
    let same = words.entries.same(&described.entries);
    same.map_err(|told| Difference::new(what, &told))?;

    let words = document::assessed(lists);
    assessed.entries.label_settled = words.entries.label_settled.clone();
    assessed.entries.label_lows = words.entries.label_lows.clone();
    assessed.entries.label_highs = words.entries.label_highs.clone();
    equal(what, &words.numbers, &assessed.numbers)?;
    let same = words.entries.same(&assessed.entries);
    same.map_err(|told| Difference::new(what, &told))?;
    Ok(Some(Expected {
        described,
        assessed,
    }))
}
