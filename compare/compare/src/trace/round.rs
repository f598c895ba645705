//! One round of random cases.
use generator::rng::Rng;
use generator::trace::events::{SHAPES, Shape, trace};
use generator::trace::faults::{
    CONTRACT_COUNTS, CONTRACTS_BEYOND, EVENT_COUNTS, EVENTS_BEYOND, Fault, damage, every_fault,
    several_faults,
};
use generator::trace::lists::TraceLists;
use generator::trace::{contracts, record};

use super::case::TraceCase;
use super::order::interleave;
use super::recording::Recording;
use super::rooms;
use super::run::{run, run_orders, run_recording};
use super::tally::TraceTally;

/// Smallest and largest number of events, and how many traces of each shape a round has.
const SIZES: [(usize, usize, usize); 3] = [(0, 8, 60), (9, 40, 40), (41, 600, 3)];

/// The round depends on its seed alone.
pub fn round(tally: &mut TraceTally, seed: u64) -> Result<(), String> {
    let rng = &mut Rng::new(seed);
    for shape in &SHAPES {
        for (least, most, count) in SIZES {
            for _ in 0..count {
                let n = rng.between(least, most);
                random(tally, rng, shape, n)?;
            }
        }
    }
    for _ in 0..3 {
        let shape = &SHAPES[rng.below(SHAPES.len())];
        random(tally, rng, shape, 4096)?;
    }
    sizes(tally, rng)?;
    for fault in every_fault() {
        for most in [4, 40] {
            run(tally, "one fault in a trace", &damaged(rng, most, &[fault]))?;
        }
    }
    for _ in 0..600 {
        let faults = several_faults(rng);
        run(tally, "several faults", &damaged(rng, 12, &faults))?;
    }
    records(tally, rng)?;
    recordings(tally, rng)
}

fn any_trace(rng: &mut Rng, n: usize) -> TraceLists {
    let shape = &SHAPES[rng.below(SHAPES.len())];
    of_shape(rng, shape, n)
}

fn of_shape(rng: &mut Rng, shape: &Shape, n: usize) -> TraceLists {
    let components = shape.1(rng, n);
    let mut lists = trace(rng, components);
    contracts::add(rng, &mut lists);
    lists
}

/// A random trace, and the same with the events of different components in another order.
fn random(tally: &mut TraceTally, rng: &mut Rng, shape: &Shape, n: usize) -> Result<(), String> {
    let lists = of_shape(rng, shape, n);
    let (other, moved) = interleave(rng, &lists);
    let cases = [rooms::enough(rng, lists), rooms::enough(rng, other)];
    let [one, other] = &cases;
    run_orders(
        tally,
        [shape.0, "interleaved otherwise"],
        [one, other],
        &moved,
    )
}

/// The sizes at both limits, each with each, and far beyond.
fn sizes(tally: &mut TraceTally, rng: &mut Rng) -> Result<(), String> {
    for events in EVENT_COUNTS {
        for contracts in CONTRACT_COUNTS {
            let sizes = [Fault::Events(events), Fault::Contracts(contracts)];
            run(tally, "traces at the limits", &damaged(rng, 600, &sizes))?;
        }
    }
    let (events, contracts) = (
        Fault::Events(EVENTS_BEYOND),
        Fault::Contracts(CONTRACTS_BEYOND),
    );
    for sizes in [&[events][..], &[contracts], &[events, contracts]] {
        run(tally, "traces far beyond", &damaged(rng, 60, sizes))?;
    }
    Ok(())
}

/// A trace of at most so many events with faults; where there are several, its room may be short
/// too, and its record full or false.
fn damaged(rng: &mut Rng, most: usize, faults: &[Fault]) -> TraceCase {
    let n = rng.between(1, most);
    let mut lists = any_trace(rng, n);
    if lists.contract_components.len() < 2 {
        contracts::resize(rng, &mut lists, 3);
    }
    damage(rng, &mut lists, faults);
    match faults.len() {
        1 => rooms::enough(rng, lists),
        _ => rooms::doubtful(rng, lists),
    }
}

/// Records of every kind, and one that holds up to as many findings as it can.
fn records(tally: &mut TraceTally, rng: &mut Rng) -> Result<(), String> {
    let kinds = [
        record::full,
        record::false_by_one,
        record::wrapping,
        record::any,
    ];
    for kind in kinds {
        for _ in 0..50 {
            let n = rng.below(12);
            let (lists, held) = (any_trace(rng, n), kind(rng));
            let case = rooms::with_record(rng, lists, held);
            run(tally, "any records", &case)?;
        }
    }
    let lists = any_trace(rng, 20);
    let held = record::open(rng, u64::MAX);
    let case = rooms::with_record(rng, lists, held);
    run(tally, "any records", &case)?;
    Ok(())
}

/// Some traces and then enough to fill the record and more, without refusals but for the last, and
/// with faulty traces between.
fn recordings(tally: &mut TraceTally, rng: &mut Rng) -> Result<(), String> {
    for most in [5, 12, 40] {
        let count = rng.pick(&[3, 63, 64, 65, 67]);
        let good = recording(rng, count, most, 0);
        run_recording(tally, "recordings", &good)?;
        let faulty = recording(rng, count + 20, most, 4);
        run_recording(tally, "recordings with faults", &faulty)?;
    }
    Ok(())
}

/// So many traces of at most so many events, a fault in one of `faulty`, or in none; list 9 has
/// room for all of them or, seldom, not for the last ones.
fn recording(rng: &mut Rng, count: usize, most: usize, faulty: usize) -> Recording {
    let mut traces = Vec::new();
    for _ in 0..count {
        let n = rng.between(0, most);
        let mut lists = any_trace(rng, n);
        if faulty > 0 && rng.chance(1, faulty) {
            let fault = rng.pick(&every_fault());
            damage(rng, &mut lists, &[fault]);
        }
        traces.push(lists);
    }
    let events = traces.iter().map(|lists| lists.ticks.len()).sum();
    let need = if rng.chance(1, 5) { events / 8 } else { events };
    Recording {
        traces,
        lengths: rooms::lengths(rng, need),
        contents: rng.word(),
    }
}
