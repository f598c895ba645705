//! What the program has to print for a text.
use compare::difference::Difference;
use compare::document::{Refusal, expected_refusal};
use compare::expected::{Expected, expected};
use generator::lists::SceneLists;

use crate::form;
use crate::report::report;
use crate::written::ended;

pub enum Answer {
    Refused(Refusal),
    Reported(Box<(SceneLists, Expected)>),
}

/// "14 is tested before the scene's checks." No list is lent, so that 7 has nothing to test.
pub fn answer(text: &[u8]) -> Result<Answer, Difference> {
    let lists = match form::scene(text) {
        Ok(lists) => lists,
        Err(line) => return Ok(Answer::Refused((14, line))),
    };
    if let Some(refusal) = expected_refusal(&lists, &[]) {
        return Ok(Answer::Refused(refusal));
    }
    let expected = expected(&lists)?.expect("an accepted scene has an answer");
    Ok(Answer::Reported(Box::new((lists, expected))))
}

impl Answer {
    /// "A refusal prints two lines only".
    pub fn printed(&self) -> Vec<u8> {
        match self {
            Answer::Refused((number, place)) => {
                ended(&[format!("refusal={number}"), format!("place={place}")])
            }
            Answer::Reported(accepted) => report(&accepted.0.ids, &accepted.1.assessed),
        }
    }
}
