//! One round of random cases.
use generator::damage::{
    COMPONENT_COUNTS, COMPONENTS_BEYOND, CONNECTION_COUNTS, CONNECTIONS_BEYOND, Fault, damage,
    every_fault, several_faults,
};
use generator::fill::filled;
use generator::lists::SceneLists;
use generator::rng::Rng;
use generator::shapes::{SHAPES, Shape};

use crate::case::Case;
use crate::order::shuffle_connections;
use crate::rooms;
use crate::run::{run, run_orders};
use crate::tally::Tally;

/// Smallest and largest number of components, and how many scenes of each shape a round has.
const SIZES: [(usize, usize, usize); 4] = [(1, 8, 40), (9, 64, 6), (65, 511, 1), (512, 512, 1)];

/// The round depends on its seed alone.
pub fn round(tally: &mut Tally, seed: u64) -> Result<(), String> {
    let rng = &mut Rng::new(seed);
    for shape in &SHAPES {
        for (least, most, count) in SIZES {
            for _ in 0..count {
                let n = rng.between(least, most);
                random(tally, rng, shape, n)?;
            }
        }
    }
    limits(tally, rng)?;
    beyond(tally, rng)?;
    for fault in every_fault() {
        for most in [8, 60] {
            run(tally, "one fault", &damaged(rng, most, &[fault]))?;
        }
    }
    for _ in 0..1000 {
        let faults = several_faults(rng);
        run(tally, "several faults", &damaged(rng, 12, &faults))?;
    }
    for _ in 0..20 {
        let faults = several_faults(rng);
        run(tally, "several faults, large", &damaged(rng, 512, &faults))?;
    }
    Ok(())
}

pub fn any_scene(rng: &mut Rng, n: usize) -> SceneLists {
    let shape = &SHAPES[rng.below(SHAPES.len())];
    scene(rng, shape, n)
}

pub fn scene(rng: &mut Rng, shape: &Shape, n: usize) -> SceneLists {
    let sketch = shape.1(rng, n);
    filled(rng, &sketch)
}

/// A random scene, and the same with its connections in another order.
fn random(tally: &mut Tally, rng: &mut Rng, shape: &Shape, n: usize) -> Result<(), String> {
    let lists = scene(rng, shape, n);
    let shuffled = shuffle_connections(rng, &lists);
    let case = rooms::enough(rng, lists);
    let other = rooms::enough(rng, shuffled);
    run_orders(tally, [shape.0, "shuffled connections"], [&case, &other])
}

/// The sizes at both limits, each with each.
fn limits(tally: &mut Tally, rng: &mut Rng) -> Result<(), String> {
    for n in COMPONENT_COUNTS {
        for m in CONNECTION_COUNTS {
            let most = rng.pick(&[60, 500]);
            let sizes = [Fault::Components(n), Fault::Connections(m)];
            run(tally, "sizes at the limits", &damaged(rng, most, &sizes))?;
        }
    }
    Ok(())
}

/// Sizes far beyond a limit, with the other one kept or not.
fn beyond(tally: &mut Tally, rng: &mut Rng) -> Result<(), String> {
    let components = Fault::Components(rng.pick(&COMPONENTS_BEYOND));
    let connections = Fault::Connections(rng.pick(&CONNECTIONS_BEYOND));
    for sizes in [
        &[components][..],
        &[connections],
        &[components, connections],
    ] {
        run(tally, "sizes far beyond", &damaged(rng, 60, sizes))?;
    }
    Ok(())
}

/// A scene of at most so many components with faults; where there are several, its room may be
/// short too.
fn damaged(rng: &mut Rng, most: usize, faults: &[Fault]) -> Case {
    let n = rng.between(1, most);
    let mut lists = any_scene(rng, n);
    damage(rng, &mut lists, faults);
    match faults.len() {
        1 => rooms::enough(rng, lists),
        _ => rooms::doubtful(rng, lists),
    }
}
