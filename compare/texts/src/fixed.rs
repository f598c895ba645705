//! The texts that are the same in every run.
use compare::builds::BUILDS;
use compare::fixed::longest_chains;
use generator::lists::SceneLists;
use generator::{faulty, small};

use crate::boundaries;
use crate::case::{Case, cases};
use crate::lengths;
use crate::written::written;

/// Of the many small scenes, one in so many.
const STEPS: [usize; 5] = [17, 97, 97, 23, 19];

pub fn fixed() -> Vec<Case> {
    let mut all = Vec::new();
    all.push(Case::new("builds of document 01", boundaries::TEXT.into()));
    all.extend(cases(
        "builds of document 01",
        BUILDS.map(|build| written(&build.lists())),
    ));
    all.extend(cases("values", boundaries::values()));
    all.extend(cases("names", boundaries::names()));
    all.extend(cases("starts of a text", boundaries::starts()));
    all.extend(cases("bytes of a text", boundaries::bytes()));
    all.extend(cases("lengths", lengths::lengths()));
    all.extend(cases("counts", lengths::counts()));
    all.extend(cases(
        "longest chains",
        longest_chains().iter().map(written),
    ));
    let small: [(&'static str, &mut dyn Iterator<Item = SceneLists>); 5] = [
        ("small scenes", &mut small::up_to_two()),
        ("small scenes", &mut small::three()),
        ("small scenes", &mut small::three_with_lists()),
        ("small faulty scenes", &mut faulty::components()),
        ("small faulty scenes", &mut faulty::connections()),
    ];
    for ((family, scenes), step) in small.into_iter().zip(STEPS) {
        let some = scenes.step_by(step).map(|lists| written(&lists));
        all.extend(cases(family, some));
    }
    all.extend(in_pieces());
    all
}

/// Texts that the program can't read at once.
fn in_pieces() -> impl Iterator<Item = Case> {
    let texts = [
        (boundaries::TEXT.into(), 2),
        (boundaries::TEXT.into(), boundaries::TEXT.len()),
        (written(&lengths::plain(300, 900, 8)), 7),
        (written(&lengths::plain(600, 0, 8)), 3),
    ];
    let long = lengths::lengths().take(4).map(|text| (text, 5));
    let texts = texts.into_iter().chain(long);
    texts.map(|(text, pieces)| Case {
        pieces,
        ..Case::new("in pieces", text)
    })
}
