//! The shapes of random scenes. Each takes a number of components, 1 or more, and makes at most
//! four connections for each, so that 512 components have at most 2,048.
use crate::kinds::{ALL, DEVICES, LAMP, LEVER, PASSIVE, REPEATER, WIRE};
use crate::rng::Rng;
use crate::sketch::{
    Sketch, any_edges, any_kinds, both_ways, forward_edges, kinds_from, line, ring, runs,
    some_kinds,
};
use crate::timing;

/// A name, and how such a scene is sketched.
pub type Shape = (&'static str, fn(&mut Rng, usize) -> Sketch);

pub const SHAPES: [Shape; 22] = [
    ("dense", dense),
    ("sparse", sparse),
    ("no cycle", no_cycle),
    ("two-way dust", two_way_dust),
    ("devices in dust", devices_in_dust),
    ("repeater chain", repeater_chain),
    ("one ring", one_ring),
    ("rings in a row", rings_in_a_row),
    ("ring of rings", ring_of_rings),
    ("steps back", steps_back),
    ("parallel edges", parallel_edges),
    ("self-edges", self_edges),
    ("supports", supports),
    ("crowded", crowded),
    ("any", any),
    ("full, no cycle", timing::full_no_cycle),
    ("ladder", timing::ladder),
    ("rails", timing::rails),
    ("adder", timing::adder),
    ("loops behind", timing::loops_behind),
    ("chains", timing::chains),
    ("compressed rings", timing::compressed_rings),
];

pub fn dense(rng: &mut Rng, n: usize) -> Sketch {
    Sketch::new(any_kinds(rng, n), any_edges(rng, n, 4 * n))
}

fn sparse(rng: &mut Rng, n: usize) -> Sketch {
    let m = rng.between(n / 2, n + n / 4);
    Sketch::new(any_kinds(rng, n), any_edges(rng, n, m))
}

fn no_cycle(rng: &mut Rng, n: usize) -> Sketch {
    Sketch::new(any_kinds(rng, n), forward_edges(rng, n, 3 * n))
}

/// A line of dust joined both ways but for some steps, with other kinds and a few edges between.
fn two_way_dust(rng: &mut Rng, n: usize) -> Sketch {
    let mut kinds = kinds_from(rng, n, &PASSIVE);
    for _ in 0..n / 6 {
        kinds[rng.below(n)] = rng.pick(&ALL);
    }
    let mut edges = both_ways(line(0, n));
    edges.retain(|_| rng.chance(9, 10));
    if rng.chance(1, 2) {
        edges.extend(any_edges(rng, n, n / 8 + 1));
    }
    Sketch::new(kinds, edges)
}

/// Runs of two-way dust with a device between each and the next, closed to a ring or not.
fn devices_in_dust(rng: &mut Rng, n: usize) -> Sketch {
    let mut kinds = vec![WIRE; n];
    let mut edges = Vec::new();
    for (start, length) in runs(rng, n, 6) {
        let device = start + length - 1;
        kinds[device] = rng.pick(&DEVICES);
        edges.extend(both_ways(line(start, length - 1)));
        if length > 1 {
            edges.push((device - 1, device));
        }
        // some runs don't hang together
        if device + 1 < n && rng.chance(15, 16) {
            edges.push((device, device + 1));
        }
    }
    if rng.chance(1, 2) {
        edges.push((n - 1, rng.below(n)));
    }
    Sketch::new(kinds, edges)
}

fn repeater_chain(rng: &mut Rng, n: usize) -> Sketch {
    let mut kinds = vec![REPEATER; n];
    kinds[0] = LEVER;
    kinds[n - 1] = LAMP;
    let mut edges = line(0, n);
    let shortcuts = rng.below(3);
    edges.extend(forward_edges(rng, n, shortcuts));
    if rng.chance(1, 3) {
        edges.push((rng.below(n), rng.below(n)));
    }
    Sketch::new(kinds, edges)
}

fn one_ring(rng: &mut Rng, n: usize) -> Sketch {
    let mut edges = ring(0, n);
    if rng.chance(1, 4) {
        edges = both_ways(edges);
    }
    Sketch::new(some_kinds(rng, n), edges)
}

/// Rings of their own taste, some of which lead to the next.
fn rings_in_a_row(rng: &mut Rng, n: usize) -> Sketch {
    let mut sketch = Sketch::default();
    for (start, length) in runs(rng, n, 9) {
        sketch.kinds.extend(some_kinds(rng, length));
        sketch.edges.extend(ring(start, length));
        if start > 0 && rng.chance(3, 4) {
            sketch.edges.push((start - 1, start));
        }
    }
    sketch
}

/// The last ring leads back to the first, so that whole rings share their cycle.
fn ring_of_rings(rng: &mut Rng, n: usize) -> Sketch {
    let mut sketch = rings_in_a_row(rng, n);
    sketch.edges.push((n - 1, 0));
    sketch
}

/// A line with short steps back, so that cycles overlap.
fn steps_back(rng: &mut Rng, n: usize) -> Sketch {
    let mut edges = line(0, n);
    for source in 0..n {
        if rng.chance(1, 4) {
            edges.push((source, source - rng.between(0, source.min(5))));
        }
    }
    Sketch::new(some_kinds(rng, n), edges)
}

fn parallel_edges(rng: &mut Rng, n: usize) -> Sketch {
    let once = any_edges(rng, n, n);
    let edges = once
        .into_iter()
        .flat_map(|edge| vec![edge; rng.between(1, 4)])
        .collect();
    Sketch::new(any_kinds(rng, n), edges)
}

fn self_edges(rng: &mut Rng, n: usize) -> Sketch {
    let mut edges: Vec<_> = (0..n)
        .filter(|_| rng.chance(1, 2))
        .map(|v| (v, v))
        .collect();
    if rng.chance(1, 2) {
        edges.extend(forward_edges(rng, n, n));
    }
    Sketch::new(any_kinds(rng, n), edges)
}

/// A line, and supports of present and absent ids that would close it if they were edges.
fn supports(rng: &mut Rng, n: usize) -> Sketch {
    let edges = if rng.chance(1, 2) {
        line(0, n)
    } else {
        any_edges(rng, n, n)
    };
    let mut supports = any_edges(rng, 2 * n, 2 * n);
    supports.push((n - 1, 0));
    Sketch {
        kinds: some_kinds(rng, n),
        edges,
        supports,
    }
}

/// Many edges between few components.
fn crowded(rng: &mut Rng, n: usize) -> Sketch {
    let few = 1 + n / 16;
    Sketch::new(any_kinds(rng, few), any_edges(rng, few, 4 * n))
}

fn any(rng: &mut Rng, n: usize) -> Sketch {
    let m = rng.between(0, 4 * n);
    let supports = rng.between(0, m);
    Sketch {
        kinds: kinds_from(rng, n, &ALL),
        edges: any_edges(rng, n, m - supports),
        supports: any_edges(rng, n + 2, supports),
    }
}
