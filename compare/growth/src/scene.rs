//! The scene calls, on scenes of repeaters: each that shares its cycle is in list 4. The answer of the
//! call that writes all lists is the one that `compare` wants.
use compare::calls::{AnalyzeLists, SceneCall};
use compare::expected::expected;
use compare::rooms;
use generator::fill::filled;
use generator::kinds::REPEATER;
use generator::lists::SceneLists;
use generator::rng::Rng;
use generator::sketch::{Pair, Sketch};
use library::checks::{CheckedNumbers, FeedbackNumbers, check_scene, feedback_scene};
use plain::shared::shared_marks;

use crate::run::{CALLS, Outcome, Run, compare};

/// The scene, and what list 4 holds: ids in component order.
fn scene(rng: &mut Rng, n: usize, edges: Vec<Pair>) -> (SceneLists, Vec<u64>) {
    let marks = shared_marks(n, &edges);
    let lists = filled(rng, &Sketch::new(vec![REPEATER; n], edges));
    let marked = lists.ids.iter().zip(&marks).filter(|(_, mark)| **mark == 1);
    let ids = marked.map(|(id, _)| *id).collect();
    (lists, ids)
}

fn runs(lists: &SceneLists) -> Run {
    Run {
        calls: CALLS,
        nodes: lists.ids.len(),
        edges: lists.sources.len(),
    }
}

pub fn check(rng: &mut Rng, n: usize, edges: Vec<Pair>) -> Outcome {
    let (lists, _) = scene(rng, n, edges);
    let accepted = CheckedNumbers {
        number: 0,
        place: 0,
    };
    for _ in 0..CALLS {
        // the room of list 4 is tested, as the other call tests it
        compare(&[check_scene(&lists, 4, &[n])], &[accepted])?;
    }
    Ok(runs(&lists))
}

pub fn analyze(rng: &mut Rng, n: usize, edges: Vec<Pair>) -> Outcome {
    let (lists, _) = scene(rng, n, edges);
    let case = rooms::enough(rng, lists);
    let expected = expected(&case.lists).map_err(|difference| difference.told)?;
    let wanted = expected.expect("an accepted scene").analyzed();
    let mut lent = AnalyzeLists::lend(rng, &case.analyze);
    for _ in 0..CALLS {
        compare(&[lent.call(&case.lists)], &[wanted.numbers])?;
    }
    lent.hold(&wanted.entries)?;
    Ok(runs(&case.lists))
}

pub fn feedback(rng: &mut Rng, n: usize, edges: Vec<Pair>) -> Outcome {
    let (lists, ids) = scene(rng, n, edges);
    let numbers = FeedbackNumbers {
        number: 0,
        place: 0,
        feedback: ids.len() as u64,
        reasons: u64::from(!ids.is_empty()),
    };
    let mut list = vec![0; n];
    for _ in 0..CALLS {
        compare(&[feedback_scene(&lists, &mut list)], &[numbers])?;
    }
    compare(&list[..ids.len()], &ids)?;
    Ok(runs(&lists))
}
