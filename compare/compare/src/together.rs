//! The one call beside its two parts, on the same scene with lists of the same lengths and contents.
use generator::lists::SceneLists;
use library::analysis::AnalyzeNumbers;

use crate::answer::analyze_numbers;
use crate::calls::{AnalyzeEntries, AnalyzeLists, SceneCall};
use crate::difference::{Difference, equal};
use crate::document::Refusal;

const WHAT: &str = "the one call and its two parts";

/// Of the one call what it answered, and its lists as it left them. Where both parts accept the scene
/// it has answered and written what they do; where one refuses it has refused and written nothing,
/// though the other part writes. The refusals of the parts come back.
pub fn compare(
    scene: &SceneLists,
    numbers: AnalyzeNumbers,
    lists: &AnalyzeLists,
) -> Result<[Option<Refusal>; 2], Difference> {
    let mut parts = lists.before();
    let described = parts.description.call(scene);
    let assessed = parts.assessment.call(scene);
    let refusals = [
        refusal(described.number, described.place),
        refusal(assessed.number, assessed.place),
    ];
    let held = match first(refusals)? {
        None => {
            equal(WHAT, &analyze_numbers(described, assessed), &numbers)?;
            parts.same(lists)
        }
        Some(refusal) => {
            equal(WHAT, &AnalyzeLists::refused(refusal), &numbers)?;
            lists.hold(&AnalyzeEntries::default())
        }
    };
    held.map_err(|told| Difference::new(WHAT, &told))?;
    Ok(refusals)
}

fn refusal(number: u32, place: u64) -> Option<Refusal> {
    (number != 0).then_some((number, place))
}

/// That of the one call. The parts refuse alike but for lists that are too short: 7 comes before what
/// is found in the rows, and lists 0 to 2 before the others.
fn first([first, second]: [Option<Refusal>; 2]) -> Result<Option<Refusal>, Difference> {
    match (first, second) {
        (Some((7, _)), _) => Ok(first),
        (_, Some((7, _))) => Ok(second),
        _ => equal("the two parts", &first, &second).map(|()| first),
    }
}
