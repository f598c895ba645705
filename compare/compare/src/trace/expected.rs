//! What a call has to answer to a trace that is accepted. The Rust decides; document 01's words are
//! held against it.
use generator::trace::lists::TraceLists;
use plain::trace::{self, Answer, trace_refusal};

use super::rust;
use crate::difference::{Difference, equal};

/// Nothing where the trace is refused whatever is lent.
pub fn expected(lists: &TraceLists) -> Result<Option<Answer>, Difference> {
    if trace_refusal(lists, 0, &[]).is_some() {
        return Ok(None);
    }
    let answer = rust::assessed(lists);
    same_answer("the Rust and document 01", &trace::answer(lists), &answer)?;
    Ok(Some(answer))
}

/// The first finding in which two answers differ is told alone.
pub fn same_answer(what: &str, wanted: &Answer, got: &Answer) -> Result<(), Difference> {
    let pairs = wanted.findings.iter().zip(&got.findings);
    for (k, (wanted, got)) in pairs.enumerate() {
        equal(what, &(k, wanted), &(k, got))?;
    }
    let numbers = |answer: &Answer| {
        let count = answer.findings.len();
        (count, answer.tallies, answer.contracts_applied)
    };
    equal(what, &numbers(wanted), &numbers(got))
}
