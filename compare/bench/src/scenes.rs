//! The scene call and its two parts against the unchanged Rust, at sizes that a scene may have.
use compare::calls::{AnalyzeLists, AssessLists, DescribeLists, SceneCall};
use compare::case::Case;
use compare::{rooms, rust, sides};
use dustroute_ir::TemporalAnalysis;
use generator::fill::filled;
use generator::rng::Rng;
use generator::shapes::{SHAPES, Shape};

use crate::clock::{Best, timed};

const NAMES: [&str; 4] = ["dense", "full, no cycle", "ladder", "two-way dust"];
const SIZES: [usize; 2] = [64, 512];

pub fn table(rng: &mut Rng) -> Result<(), String> {
    println!(
        "{:<16}{:>6}{:>8}{:>11}{:>11}{:>11}{:>11}{:>10}{:>10}{:>10}",
        "scene",
        "N",
        "M",
        "Rust",
        "describe",
        "assess",
        "scene call",
        "ratio",
        "describe",
        "assess"
    );
    for n in SIZES {
        for name in NAMES {
            let shape = SHAPES.iter().find(|shape| shape.0 == name);
            row(rng, shape.expect("a shape of that name"), n)?;
        }
    }
    println!(
        "times in microseconds; ratio: the Rust's time to that of the scene call, and of each of its \
         parts\n"
    );
    Ok(())
}

/// The answers are compared before anything is timed.
fn row(rng: &mut Rng, shape: &Shape, n: usize) -> Result<(), String> {
    let sketch = shape.1(rng, n);
    let lists = filled(rng, &sketch);
    let case = rooms::enough(rng, lists);
    sides::compare(&case).map_err(|difference| {
        let (what, told) = (difference.what, difference.told);
        format!("{what}: {told}\n{case}")
    })?;
    let best = best(rng, &case);
    let (n, m) = (case.lists.ids.len(), case.lists.sources.len());
    let times = [0, 1, 2, 3].map(|thing| format!("{:>11.1}", best.microseconds(thing)));
    let ratios = [3, 1, 2].map(|thing| format!("{:>10.1}", best.ratio(thing)));
    let (times, ratios) = (times.concat(), ratios.concat());
    println!("{:<16}{n:>6}{m:>8}{times}{ratios}", shape.0);
    Ok(())
}

/// The Rust, each part of the scene call, and the scene call.
fn best(rng: &mut Rng, case: &Case) -> Best {
    let scene = rust::physical_scene(&case.lists);
    let lists = &case.lists;
    let mut describe = DescribeLists::lend(rng, &case.describe);
    let mut assess = AssessLists::lend(rng, &case.assess);
    let mut analyze = AnalyzeLists::lend(rng, &case.analyze);
    Best::of(&mut [
        &mut || timed(|| TemporalAnalysis::from_scene(&scene)),
        &mut || timed(|| describe.call(lists)),
        &mut || timed(|| assess.call(lists)),
        &mut || timed(|| analyze.call(lists)),
    ])
}
