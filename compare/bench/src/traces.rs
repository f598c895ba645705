//! The trace call against the unchanged Rust, up to the most events that a trace may have.
use compare::trace::case::TraceCase;
use compare::trace::list9::FindingLists;
use compare::trace::{rooms, rust, sides};
use dustroute_ir::assess_transients as rust_assess_transients;
use generator::rng::Rng;
use generator::trace::contracts;
use generator::trace::events::{SHAPES, Shape, busy_trace};
use library::traces::assess_transients;

use crate::clock::{Best, timed};

const NAMES: [&str; 6] = [
    "one component",
    "few components",
    "many components",
    "components in turn",
    "components in runs",
    "a component each",
];
const SIZES: [usize; 3] = [64, 512, 4096];
/// The size that growth is held against.
const BASE: usize = 512;

struct Row {
    events: usize,
    contracts: usize,
    findings: usize,
    best: Best,
}

impl Row {
    /// The time of the call for each unit of N log N.
    fn per_scale(&self) -> f64 {
        let n = self.events as f64;
        self.best.microseconds(1) / (n * n.log2())
    }
}

pub fn table(rng: &mut Rng) -> Result<(), String> {
    println!(
        "\n{:<20}{:>8}{:>11}{:>10}{:>11}{:>11}{:>10}{:>13}",
        "trace", "events", "contracts", "findings", "Rust", "call", "ratio", "against 512"
    );
    for name in NAMES {
        let shape = SHAPES.iter().find(|shape| shape.0 == name);
        rows(rng, shape.expect("a shape of that name"))?;
    }
    println!(
        "times in microseconds; ratio: the Rust's time to that of the call; against 512: the \
         call's time for each unit of N log N, held against that at 512 events"
    );
    Ok(())
}

fn rows(rng: &mut Rng, shape: &Shape) -> Result<(), String> {
    let rows: Result<Vec<_>, _> = SIZES.iter().map(|n| row(rng, shape, *n)).collect();
    let rows = rows?;
    let base = rows.iter().find(|row| row.events == BASE);
    let base = base.expect("a row of that size").per_scale();
    for row in &rows {
        let (events, contracts, findings) = (row.events, row.contracts, row.findings);
        let times = [0, 1].map(|thing| format!("{:>11.1}", row.best.microseconds(thing)));
        let (ratio, growth) = (row.best.ratio(1), row.per_scale() / base);
        println!(
            "{:<20}{events:>8}{contracts:>11}{findings:>10}{}{ratio:>10.1}{growth:>13.2}",
            shape.0,
            times.concat()
        );
    }
    Ok(())
}

/// The answers are compared before anything is timed.
fn row(rng: &mut Rng, shape: &Shape, n: usize) -> Result<Row, String> {
    let components = shape.1(rng, n);
    let mut lists = busy_trace(rng, components);
    contracts::add_all(rng, &mut lists);
    let case = rooms::enough(rng, lists);
    let agreed = sides::compare(&case).map_err(|difference| {
        let (what, told) = (difference.what, difference.told);
        format!("{what}: {told}\n{case}")
    })?;
    let answer = agreed.answer.expect("an accepted trace");
    Ok(Row {
        events: n,
        contracts: case.lists.contract_components.len(),
        findings: answer.findings.len(),
        best: best(rng, &case),
    })
}

/// The Rust and the call.
fn best(rng: &mut Rng, case: &TraceCase) -> Best {
    let (trace, contracts) = (rust::trace(&case.lists), rust::contracts(&case.lists));
    let mut lent = FindingLists::lend(rng, &case.assess);
    Best::of(&mut [
        &mut || timed(|| rust_assess_transients(&trace, &contracts)),
        &mut || timed(|| assess_transients(&case.lists, &mut lent.lists())),
    ])
}
