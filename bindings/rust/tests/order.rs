//! The order of connections decides nothing but the order in which edges are listed.
mod common;

use common::{of, repeater, scene};
use sizhbanto::{BlockKind, Connection, Report, Scene};
use std::collections::HashMap;
use std::hash::Hash;

/// Two ways of unequal delay to a lamp, with a torch clock behind it.
fn build() -> Scene {
    let components = [
        of(10, BlockKind::Lever),
        repeater(3, 2),
        of(7, BlockKind::RedstoneLamp),
        of(1, BlockKind::RedstoneTorch),
        of(8, BlockKind::RedstoneWire),
    ];
    scene(
        &components,
        &[(10, 3), (3, 7), (10, 7), (7, 1), (1, 8), (8, 1)],
    )
}

/// Every order of some connections.
fn orders(connections: &[Connection]) -> Vec<Vec<Connection>> {
    let Some((first, rest)) = connections.split_first() else {
        return vec![vec![]];
    };
    let mut found = Vec::new();
    for order in orders(rest) {
        for at in 0..=order.len() {
            let mut order = order.clone();
            order.insert(at, *first);
            found.push(order);
        }
    }
    found
}

/// How often each entry is there.
fn counted<T: Eq + Hash>(entries: &[T]) -> HashMap<&T, usize> {
    let mut counts = HashMap::new();
    for entry in entries {
        *counts.entry(entry).or_default() += 1;
    }
    counts
}

fn assert_same(one: &Report, other: &Report) {
    assert_eq!(counted(&one.timed_edges), counted(&other.timed_edges));
    assert_eq!(counted(&one.evidence), counted(&other.evidence));
    assert_eq!(counted(&one.projected), counted(&other.projected));
    let mut rest = other.clone();
    rest.timed_edges = one.timed_edges.clone();
    rest.evidence = one.evidence.clone();
    rest.projected = one.projected.clone();
    assert_eq!(*one, rest);
}

#[test]
fn every_order() {
    let mut scene = build();
    let first = scene.report().expect("an accepted scene");
    assert_eq!(first.reasons.len(), 3); // Feedback, and unequal delays at torch and lamp
    assert_eq!(first.projected.len(), 4);
    let orders = orders(&scene.connections);
    assert_eq!(orders.len(), 720);
    let mut listed_otherwise = false;
    for order in orders {
        scene.connections = order;
        let report = scene.report().expect("an accepted scene");
        listed_otherwise |= report.projected != first.projected;
        assert_same(&first, &report);
    }
    assert!(listed_otherwise);
}
