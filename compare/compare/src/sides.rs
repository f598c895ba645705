//! A case asked of all sides.
use generator::rng::Rng;
use library::checks::{CheckedNumbers, FeedbackNumbers, check_scene, feedback_scene};

use crate::answer::Answer;
use crate::calls::{AnalyzeLists, AssessLists, DescribeLists, SceneCall};
use crate::case::Case;
use crate::difference::{Difference, equal};
use crate::document::{Refusal, expected_refusal};
use crate::expected::{Expected, expected};
use crate::lent::Lent;
use crate::{parts, together};

/// What all sides agree on: the refusal of each call, if any, and the answer of a scene that
/// nothing but want of room can have refused.
pub struct Agreed {
    pub check: Option<Refusal>,
    pub feedback: Option<Refusal>,
    pub describe: Option<Refusal>,
    pub assess: Option<Refusal>,
    pub analyze: Option<Refusal>,
    /// Those of the two parts that are lent what the one call is lent.
    pub parts: [Option<Refusal>; 2],
    pub expected: Option<Expected>,
}

pub fn compare(case: &Case) -> Result<Agreed, Difference> {
    let expected = expected(&case.lists)?;
    let described = expected.as_ref().map(|answers| &answers.described);
    let assessed = expected.as_ref().map(|answers| &answers.assessed);
    let ids = assessed.map(|assessed| &assessed.entries.feedback_ids[..]);
    let rng = &mut Rng::new(case.contents);
    let check = compare_check(case)?;
    let feedback = compare_feedback(case, rng, ids.unwrap_or_default())?;
    let (describe, _, _) = compare_call::<DescribeLists>(case, rng, &case.describe, described)?;
    let (assess, _, lent) = compare_call::<AssessLists>(case, rng, &case.assess, assessed)?;
    if let (None, Some(assessed)) = (assess, assessed) {
        parts::compare_used(&lent, &assessed.entries)?;
    }
    parts::compare_any(rng, &lent)?;
    let analyzed = expected.as_ref().map(Expected::analyzed);
    let (analyze, numbers, lent) =
        compare_call::<AnalyzeLists>(case, rng, &case.analyze, analyzed.as_ref())?;
    let parts = together::compare(&case.lists, numbers, &lent)?;
    Ok(Agreed {
        check,
        feedback,
        describe,
        assess,
        analyze,
        parts,
        expected,
    })
}

fn compare_check(case: &Case) -> Result<Option<Refusal>, Difference> {
    let refusal = expected_refusal(&case.lists, &case.check_room());
    let (number, place) = refusal.unwrap_or_default();
    let wanted = CheckedNumbers { number, place };
    let answer = check_scene(&case.lists, case.first, &case.room);
    equal("sizhbanto_check_scene", &wanted, &answer)?;
    Ok(refusal)
}

/// One Feedback reason if list 4 is not empty.
fn compare_feedback(
    case: &Case,
    rng: &mut Rng,
    ids: &[u64],
) -> Result<Option<Refusal>, Difference> {
    const NAME: &str = "sizhbanto_feedback_scene";
    let refusal = expected_refusal(&case.lists, &[(4, case.feedback)]);
    let (number, place) = refusal.unwrap_or_default();
    let ids = if refusal.is_none() { ids } else { &[] };
    let wanted = FeedbackNumbers {
        number,
        place,
        feedback: ids.len() as u64,
        reasons: u64::from(!ids.is_empty()),
    };
    let mut list = Lent::new(rng, case.feedback);
    let answer = feedback_scene(&case.lists, list.part());
    equal(NAME, &wanted, &answer)?;
    let held = list.holds("list 4", ids);
    held.map_err(|told| Difference::new(NAME, &told))?;
    Ok(refusal)
}

/// One of the calls that write many lists; what it answers and its lists as it left them come back.
fn compare_call<C: SceneCall>(
    case: &Case,
    rng: &mut Rng,
    lengths: &[usize],
    answer: Option<&Answer<C>>,
) -> Result<(Option<Refusal>, C::Numbers, C), Difference> {
    let lists = C::LISTS.iter().copied();
    let room: Vec<_> = lists.zip(lengths.iter().copied()).collect();
    let refusal = expected_refusal(&case.lists, &room);
    let none = C::Entries::default();
    let (numbers, entries) = match (refusal, answer) {
        (None, Some(answer)) => (answer.numbers, &answer.entries),
        (refusal, _) => (C::refused(refusal.expect("no answer, no room")), &none),
    };
    let mut lent = C::lend(rng, lengths);
    let got = lent.call(&case.lists);
    equal(C::NAME, &numbers, &got)?;
    let held = lent.hold(entries);
    held.map_err(|told| Difference::new(C::NAME, &told))?;
    Ok((refusal, got, lent))
}
