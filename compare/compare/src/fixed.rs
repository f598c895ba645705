//! The families that are the same in every run.
use generator::damage::{Fault, damage};
use generator::kinds::{LEVER, REPEATER, TORCH};
use generator::lists::{ABSENT_DELAY, SceneLists};
use generator::rng::Rng;
use generator::small::rows;
use generator::{faulty, fill, shapes, small};

use crate::builds::BUILDS;
use crate::rooms;
use crate::run::{as_known, run, run_build};
use crate::tally::Tally;

/// The builds to hold against, every small scene, every small faulty one, every room of some, and
/// every pair of faults.
pub fn families(tally: &mut Tally) -> Result<(), String> {
    let rng = &mut Rng::new(0);
    for build in &BUILDS {
        let case = rooms::enough(rng, build.lists());
        run_build(tally, build, &case)?;
    }
    all(tally, rng, "all of up to two", small::up_to_two())?;
    all(tally, rng, "all sets of three", small::three())?;
    all(tally, rng, "all lists of three", small::three_with_lists())?;
    all(tally, rng, "all faulty rows", faulty::components())?;
    all(tally, rng, "all faulty rows", faulty::connections())?;
    for lists in faulty::lengths() {
        let case = rooms::doubtful(rng, lists);
        run(tally, "all faulty lengths", &case)?;
    }
    let longest = longest_chains();
    all(tally, rng, "longest chains", longest.into_iter())?;
    for n in [0, 1, 2, 5, 40] {
        let sketch = shapes::dense(rng, n);
        let lists = fill::filled(rng, &sketch);
        for case in rooms::all_of_check(rng, &lists) {
            run(tally, "all rooms of the check", &case)?;
        }
        for case in rooms::all_of_calls(rng, &lists) {
            run(tally, "all short number lists", &case)?;
        }
    }
    one_part_short(tally, rng)?;
    pairs(tally, rng)
}

/// One torch, no connection, and every list long enough but list 3: as two calls lists 1 and 2 are
/// written, as one call nothing is.
fn one_part_short(tally: &mut Tally, rng: &mut Rng) -> Result<(), String> {
    let mut lists = SceneLists::default();
    lists.push_component(1, TORCH, ABSENT_DELAY, 0, [0, 0, 0]);
    let case = rooms::short(rng, lists, &[3]);
    let agreed = run(tally, "one part too short", &case)?;
    let told = agreed.expected.map(|expected| {
        let written = expected.described.numbers;
        let counts = [written.timed_edges, written.devices, written.evidence];
        let refusals = [agreed.describe, agreed.assess, agreed.analyze];
        format!("{refusals:?}, {counts:?} written by the first")
    });
    let known = "[None, Some((7, 3)), Some((7, 3))], [0, 1, 1] written by the first";
    as_known(told, known, &case)
}

/// One fault for each step in the order of refusals but for 7; list 1 of the ten is of components,
/// list 9 of connections.
const STEPS: [Fault; 8] = [
    Fault::Short(1),
    Fault::Short(9),
    Fault::Components(513),
    Fault::Connections(2049),
    Fault::Kind(13),
    Fault::EqualIds,
    Fault::Transfer(7),
    Fault::AbsentSink,
];

/// Each of these faults with each, with room enough, and with lists too short of the first part, of
/// the second and of both.
fn pairs(tally: &mut Tally, rng: &mut Rng) -> Result<(), String> {
    for faults in rows(&STEPS, 2) {
        for short in [&[][..], &[1], &[8], &[2, 3]] {
            let sketch = shapes::dense(rng, 5);
            let mut lists = fill::filled(rng, &sketch);
            damage(rng, &mut lists, &faults);
            run(
                tally,
                "all pairs of faults",
                &rooms::short(rng, lists, short),
            )?;
        }
    }
    Ok(())
}

/// All scenes of a family, with room enough, so that none is refused for want of it.
fn all(
    tally: &mut Tally,
    rng: &mut Rng,
    family: &'static str,
    scenes: impl Iterator<Item = SceneLists>,
) -> Result<(), String> {
    for lists in scenes {
        run(tally, family, &rooms::enough(rng, lists))?;
    }
    Ok(())
}

/// A lever and 511 repeaters of the largest delay in a row, left open, with a shortcut from the
/// lever to the end, and closed to a ring: the largest sums and the deepest visits.
pub fn longest_chains() -> [SceneLists; 3] {
    let mut open = SceneLists::default();
    for id in 0..512 {
        let kind = if id == 0 { LEVER } else { REPEATER };
        open.push_component(id, kind, 255, 0, [0, 0, 0]);
    }
    for id in 1..512 {
        open.push_connection(id - 1, id, 4);
    }
    let (mut shortcut, mut closed) = (open.clone(), open.clone());
    shortcut.push_connection(0, 511, 4);
    closed.push_connection(511, 0, 4);
    [open, shortcut, closed]
}
