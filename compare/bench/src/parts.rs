//! The parts that have no limit of size, against the whole of the Rust's call at a size beyond a
//! scene's limits.
use compare::rust;
use dustroute_ir::TemporalAnalysis;
use generator::fill::{delay_ranges, filled};
use generator::rng::Rng;
use generator::shapes::{Shape, dense};
use generator::sketch::Pair;
use generator::timing::full_no_cycle;
use library::marking::{Scratch, mark_shared_components};
use library::ordering::sort_positions;
use library::reconvergent::{Reconverged, SumLists, TimedGraph, reconvergent_delay_reasons};
use plain::reconvergence::reconvergence;
use plain::shared::shared_marks;

use crate::clock::{Best, timed};

const COMPONENTS: usize = 4096;
/// Few components of the first are settled, all of the second.
const SHAPES: [Shape; 2] = [("dense", dense), ("full, no cycle", full_no_cycle)];
const PARTS: [&str; 4] = [
    "the Rust, whole",
    "sort_positions",
    "mark_shared_components",
    "reconvergent_delay_reasons",
];

pub fn table(rng: &mut Rng) -> Result<(), String> {
    println!(
        "{:<16}{:<28}{:>6}{:>8}{:>12}{:>8}",
        "scene", "part", "N", "M", "time", "ratio"
    );
    for shape in SHAPES {
        rows(rng, shape)?;
    }
    Ok(())
}

fn rows(rng: &mut Rng, (shape, sketch): Shape) -> Result<(), String> {
    let sketch = sketch(rng, COMPONENTS);
    let lists = filled(rng, &sketch);
    let scene = rust::physical_scene(&lists);
    let (ids, edges, m) = (&lists.ids, &sketch.edges, sketch.edges.len());
    let graph = timed_graph(rng, edges);
    let mut rising: Vec<_> = (0..COMPONENTS).collect();
    rising.sort_by_key(|v| ids[*v]);
    let (mut order, mut work) = (vec![0; COMPONENTS], vec![0; COMPONENTS]);
    let (mut marks, mut scratch) = (vec![7; COMPONENTS], Scratch::new(COMPONENTS, m));
    let (mut sums, mut answer) = (SumLists::new(COMPONENTS, m), None);
    let best = Best::of(&mut [
        &mut || timed(|| TemporalAnalysis::from_scene(&scene)),
        &mut || timed(|| sort_positions(ids, &mut order, &mut work)),
        &mut || {
            timed(|| mark_shared_components(&graph.sources, &graph.sinks, &mut marks, &mut scratch))
        },
        &mut || timed(|| answer = Some(reconvergent_delay_reasons(&graph, &rising, &mut sums))),
    ]);
    let right = [
        true,
        order == rising,
        marks == shared_marks(COMPONENTS, edges),
        answer.is_some_and(|answer| right_sums(&graph, edges, &rising, answer, &sums)),
    ];
    for (thing, part) in PARTS.iter().enumerate() {
        if !right[thing] {
            return Err(format!("{part}: {shape}"));
        }
        let (time, ratio) = (best.microseconds(thing), best.ratio(thing));
        println!("{shape:<16}{part:<28}{COMPONENTS:>6}{m:>8}{time:>12.1}{ratio:>8.1}");
    }
    Ok(())
}

fn timed_graph(rng: &mut Rng, edges: &[Pair]) -> TimedGraph {
    let (sources, sinks) = edges.iter().copied().unzip();
    let (low, high) = delay_ranges(rng, COMPONENTS);
    TimedGraph {
        sources,
        sinks,
        low,
        high,
    }
}

/// Whether marks, sums and the listed positions are those of the plain computation.
fn right_sums(
    graph: &TimedGraph,
    edges: &[Pair],
    rising: &[usize],
    answer: Reconverged,
    sums: &SumLists,
) -> bool {
    let plain = reconvergence(edges, &graph.low, &graph.high, rising);
    let count = plain.unequal.len();
    let numbers = Reconverged {
        fits: true,
        unequal: count,
    };
    answer == numbers
        && sums.settled == plain.settled
        && sums.smallest == plain.smallest
        && sums.largest == plain.largest
        && sums.unequal[..count] == plain.unequal
}
