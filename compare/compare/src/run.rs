//! Runs one case of a family. A difference is told in full, with its case made small.
use std::fmt::Display;
use std::panic::{AssertUnwindSafe, catch_unwind};

use crate::builds::{Build, brief};
use crate::case::Case;
use crate::difference::Difference;
use crate::order::same_answers;
use crate::shrink::{Shrink, shrunk};
use crate::sides::{Agreed, compare};
use crate::tally::Tally;

/// Compares a case and counts it.
pub fn run(tally: &mut Tally, family: &'static str, case: &Case) -> Result<Agreed, String> {
    let agreed = compared(family, case, compare)?;
    tally.add(family, &case.lists, &agreed);
    Ok(agreed)
}

/// Compares a case of any sort.
pub fn compared<C: Shrink + Display, A>(
    family: &str,
    case: &C,
    compare: fn(&C) -> Result<A, Difference>,
) -> Result<A, String> {
    let compared = |case: &C| caught(|| compare(case));
    compared(case).map_err(|Difference { what, told }| {
        let same = |case: &C| compared(case).is_err_and(|other| other.what == what);
        let small = shrunk(case, same);
        let again = match compared(&small) {
            Err(difference) => difference.told,
            Ok(_) => "as above".to_owned(),
        };
        format!("in the family '{family}', {what}: {told}\n{case}\n\nmade small: {again}\n{small}")
    })
}

/// A side that panics has no answer; that is a difference too.
fn caught<A>(compare: impl FnOnce() -> Result<A, Difference>) -> Result<A, Difference> {
    catch_unwind(AssertUnwindSafe(compare)).unwrap_or_else(|payload| {
        let text = payload.downcast_ref::<String>().map(String::as_str);
        let text = text.or(payload.downcast_ref::<&str>().copied());
        Err(Difference::new("a panic", text.unwrap_or("without a text")))
    })
}

/// A build of document 01, whose answer is known beforehand.
pub fn run_build(tally: &mut Tally, build: &Build, case: &Case) -> Result<(), String> {
    let agreed = run(tally, "builds of document 01", case)?;
    let expected = agreed.expected.as_ref();
    let answer = expected.map(|expected| brief(&case.lists.ids, &expected.assessed));
    as_known(answer, build.answer, case)
}

/// The answer that all sides have, if any, is the known one.
pub fn as_known(answer: Option<String>, known: &str, case: &impl Display) -> Result<(), String> {
    if answer.as_deref() == Some(known) {
        return Ok(());
    }
    Err(format!(
        "all sides have {answer:?}, but document 01 has {known:?}\n{case}"
    ))
}

/// Two cases of the same connections in different orders, with room for all answers.
pub fn run_orders(
    tally: &mut Tally,
    families: [&'static str; 2],
    cases: [&Case; 2],
) -> Result<(), String> {
    let one = run(tally, families[0], cases[0])?.expected;
    let other = run(tally, families[1], cases[1])?.expected;
    agreeing(families[0], cases, [one, other], same_answers)
}

/// The answers of two cases of any sort are the same, where both have one.
pub fn agreeing<C: Display, A>(
    family: &str,
    [case, other_case]: [&C; 2],
    answers: [Option<A>; 2],
    same: impl FnOnce(&A, &A) -> Result<(), Difference>,
) -> Result<(), String> {
    // these are the entries that the library has written too
    let [Some(one), Some(other)] = &answers else {
        return Ok(());
    };
    same(one, other).map_err(|Difference { what, told }| {
        format!("in the family '{family}', {what}: {told}\n{case}\n\nand\n{other_case}")
    })
}
