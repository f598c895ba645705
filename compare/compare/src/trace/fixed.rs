//! The families that are the same in every run.
use generator::rng::Rng;
use generator::small::rows;
use generator::trace::faults::{Fault, damage};
use generator::trace::lists::{Contract, STABLE, TraceLists};
use generator::trace::{contracts, events, record, small};

use super::builds::BUILDS;
use super::recording::Recording;
use super::rooms;
use super::run::{run, run_build, run_recording};
use super::tally::TraceTally;

/// The events of the largest of all small traces.
const SMALL: u32 = 5;
/// The events of the longest trace.
const LONG: usize = 4096;

/// The traces of document 01, every small trace, every contract of a pulse, every small faulty
/// trace, every record of a kind, every room of some, and the longest traces.
pub fn families(tally: &mut TraceTally) -> Result<(), String> {
    let rng = &mut Rng::new(0);
    for build in &BUILDS {
        let case = rooms::enough(rng, build.lists());
        run_build(tally, build, &case)?;
    }
    all(tally, rng, "all of up to five events", small::traces(SMALL))?;
    all(tally, rng, "all contracts of a pulse", small::contracts())?;
    all(
        tally,
        rng,
        "all faulty contracts",
        small::faulty_contracts(),
    )?;
    all(tally, rng, "all faulty events", small::faulty_events())?;
    for lists in small::lengths() {
        let case = rooms::doubtful(rng, lists);
        run(tally, "all faulty lengths", &case)?;
    }
    records(tally, rng)?;
    short_lists(tally, rng)?;
    pairs(tally, rng)?;
    all(tally, rng, "longest traces", longest_traces().into_iter())?;
    run_recording(tally, "the fullest recording", &fullest_recording(rng))?;
    Ok(())
}

/// All traces of a family, with room enough and a record that takes them.
fn all(
    tally: &mut TraceTally,
    rng: &mut Rng,
    family: &'static str,
    traces: impl Iterator<Item = TraceLists>,
) -> Result<(), String> {
    for lists in traces {
        run(tally, family, &rooms::enough(rng, lists))?;
    }
    Ok(())
}

/// So many events of any few components, with contracts.
fn some_trace(rng: &mut Rng, n: usize) -> TraceLists {
    let components = events::few(rng, n);
    let mut lists = events::trace(rng, components);
    contracts::add(rng, &mut lists);
    lists
}

/// Every record, true or not, under a good trace and under one that is refused for itself.
fn records(tally: &mut TraceTally, rng: &mut Rng) -> Result<(), String> {
    for held in record::all() {
        let good = some_trace(rng, 6);
        let mut bad = good.clone();
        bad.resize_list(rng.below(10), 1);
        for lists in [good, bad] {
            let case = rooms::with_record(rng, lists, held);
            run(tally, "all records", &case)?;
        }
    }
    Ok(())
}

fn short_lists(tally: &mut TraceTally, rng: &mut Rng) -> Result<(), String> {
    for n in [0, 1, 2, 3, 40] {
        for (traces, findings) in [(0, 0), (1, 1), (2, 7), (1, 4096)] {
            let lists = some_trace(rng, n);
            let held = record::holding(rng, traces, findings);
            for case in rooms::all_short(rng, &lists, held) {
                run(tally, "all short finding lists", &case)?;
            }
        }
    }
    Ok(())
}

/// One fault for each step in the order of a trace's refusals but for 7.
const STEPS: [Fault; 8] = [
    Fault::Short(1),
    Fault::Short(8),
    Fault::Events(4097),
    Fault::Contracts(513),
    Fault::Unit(2),
    Fault::Powered(2),
    Fault::Intent(4),
    Fault::EqualComponents,
];

/// Each of these faults with each, with room enough and without, into a true record, a full one and
/// a false one.
fn pairs(tally: &mut TraceTally, rng: &mut Rng) -> Result<(), String> {
    let counts = [(1, 1, 0), (64, 1, 0), (1, 1, 1), (64, 1, 1)];
    for faults in rows(&STEPS, 2) {
        for (traces, findings, more) in counts {
            for short in [0, 1] {
                let mut lists = some_trace(rng, 5);
                contracts::resize(rng, &mut lists, 3);
                damage(rng, &mut lists, &faults);
                let mut held = record::holding(rng, traces, findings);
                held.findings += more;
                let mut case = rooms::with_record(rng, lists, held);
                case.assess[11] = case.assess_need() - short;
                case.record[0] = case.record_need() - short;
                run(tally, "all pairs of faults", &case)?;
            }
        }
    }
    Ok(())
}

/// One component with a pulse at each event but the first and the last; 512 components in turn, the
/// highest first, each under a contract; a component for each event.
fn longest_traces() -> [TraceLists; 3] {
    let mut turns = alternating(|i| (512 - i % 512) as u64, 512);
    for id in 1..=512 {
        turns.push_contract(Contract {
            component: id,
            intent: (id % 4) as u8,
            powered: (id / 4 % 2) as u8,
            polarity: (id / 8 % 2) as u8,
            unit: (id / 16 % 2) as u8,
            smallest: 510 + id / 32 % 4,
            largest: 510 + id / 128 % 4,
        });
    }
    [
        one_component(),
        turns,
        alternating(|i| (LONG - i) as u64, 1),
    ]
}

fn one_component() -> TraceLists {
    let stable = Contract {
        component: u64::MAX,
        intent: STABLE,
        ..Contract::default()
    };
    alternating(|_| u64::MAX, 1).with_contracts([stable])
}

/// As many events as a trace may have; the level changes after so many of them.
fn alternating(component: fn(usize) -> u64, each: usize) -> TraceLists {
    let mut lists = TraceLists::default();
    for i in 0..LONG {
        lists.push_event(i as u64, component(i), (i / each % 2) as u8);
    }
    lists
}

/// Sixty-four of the longest traces into one record, and one more.
fn fullest_recording(rng: &mut Rng) -> Recording {
    Recording {
        traces: vec![one_component(); 65],
        lengths: rooms::lengths(rng, 64 * LONG),
        contents: rng.word(),
    }
}
