//! Shapes in which delays and paths matter: ladders, adders, chains, and loops behind them. As in
//! `shapes`, each takes 1 or more components and makes at most four connections for each.
use crate::kinds::{DEVICES, LAMP, LEVER, PASSIVE, REPEATER, TORCH, WIRE};
use crate::rng::Rng;
use crate::sketch::{Pair, Sketch, forward_edges, kinds_from, line, ring, runs};

/// What chains are made of.
const LINKS: [u8; 4] = [WIRE, REPEATER, REPEATER, LAMP];

/// As many edges as there may be, and no cycle.
pub fn full_no_cycle(rng: &mut Rng, n: usize) -> Sketch {
    let kinds = kinds_from(rng, n, &[LEVER, WIRE, REPEATER, TORCH, LAMP, REPEATER]);
    Sketch::new(kinds, forward_edges(rng, n, 4 * n))
}

/// Joints one behind the other, with two or three branches between each and the next; the paths
/// are more than can be counted out.
pub fn ladder(rng: &mut Rng, n: usize) -> Sketch {
    let mut kinds = kinds_from(rng, n, &[REPEATER, REPEATER, WIRE, TORCH]);
    kinds[0] = LEVER;
    let mut edges = Vec::new();
    let mut joint = 0;
    while joint + 1 < n {
        let next = (joint + rng.between(1, 6)).min(n - 1);
        let mut start = joint + 1;
        while start < next {
            let length = rng.between(1, next - start);
            edges.push((joint, start));
            edges.extend(line(start, length));
            edges.push((start + length - 1, next));
            start += length;
        }
        if next == joint + 1 || rng.chance(1, 3) {
            edges.push((joint, next));
        }
        joint = next;
    }
    Sketch::new(kinds, edges)
}

/// Two rails with rungs between, which all go forward.
pub fn rails(rng: &mut Rng, n: usize) -> Sketch {
    let kinds = kinds_from(rng, n, &[REPEATER, REPEATER, TORCH, WIRE, LAMP]);
    let steps = [1, 2, 2, 3];
    let edges = (0..n).flat_map(|v| steps.map(|step| (v, v + step)));
    let mut edges: Vec<Pair> = edges.filter(|edge| edge.1 < n).collect();
    edges.retain(|_| rng.chance(5, 6));
    Sketch::new(kinds, edges)
}

/// The inputs of the nine torches of a full adder, each of which is on if both inputs are off:
/// 0 and 1 are the addends, 2 the carry, from 3 on the torches. The sum is 10, the carry out 11.
const ADDER: [[usize; 2]; 9] = [
    [0, 1],
    [0, 3],
    [1, 3],
    [4, 5],
    [6, 2],
    [6, 7],
    [2, 7],
    [8, 9],
    [3, 7],
];

/// Full adders in a row, with a wire or a repeater on some of the edges; the last one is cut off
/// where the components end.
pub fn adder(rng: &mut Rng, n: usize) -> Sketch {
    let mut sketch = Sketch::new(vec![LEVER], Vec::new());
    let mut carry = 0;
    while sketch.kinds.len() < n {
        let first = sketch.kinds.len();
        sketch.kinds.extend([LEVER, LEVER]);
        sketch.kinds.extend([TORCH; 9]);
        sketch.kinds.push(LAMP);
        let at = |place: usize| match place {
            2 => carry,
            0 | 1 => first + place,
            _ => first + place - 1,
        };
        for (gate, inputs) in ADDER.iter().enumerate() {
            for input in inputs {
                joined(rng, &mut sketch, at(*input), at(gate + 3));
            }
        }
        sketch.edges.push((at(10), first + 11));
        carry = at(11);
    }
    sketch.kinds.truncate(n);
    sketch
        .edges
        .retain(|(source, sink)| *source < n && *sink < n);
    sketch
}

/// An edge, or two with a wire or a repeater between.
fn joined(rng: &mut Rng, sketch: &mut Sketch, source: usize, sink: usize) {
    if rng.chance(2, 3) {
        sketch.edges.push((source, sink));
        return;
    }
    let between = sketch.kinds.len();
    sketch.kinds.push(rng.pick(&[WIRE, REPEATER]));
    sketch.edges.extend([(source, between), (between, sink)]);
}

/// A part without cycles, then rings that it leads into at many places, then what the rings lead
/// to: unsettled components where paths of different sums meet.
pub fn loops_behind(rng: &mut Rng, n: usize) -> Sketch {
    let before = n.div_ceil(2);
    let kinds = kinds_from(rng, n, &[REPEATER, REPEATER, TORCH, WIRE, LAMP]);
    let mut edges = forward_edges(rng, before, before);
    for (start, length) in runs(rng, n - before, 5) {
        let start = before + start;
        match rng.below(3) {
            0 => edges.extend(line(start, length)),
            _ => edges.extend(ring(start, length)),
        }
        for sink in start..start + length {
            for _ in 0..rng.below(3) {
                edges.push((rng.below(before), sink));
            }
        }
        if start > before && rng.chance(1, 2) {
            edges.push((start - 1, start));
        }
    }
    Sketch::new(kinds, edges)
}

/// A few components with chains between them, from one to itself too, and rings that no chain
/// leads to.
pub fn chains(rng: &mut Rng, n: usize) -> Sketch {
    let few = rng.between(1, 1 + n / 8);
    let mut kinds = kinds_from(rng, few, &[TORCH, LEVER, REPEATER, WIRE, DEVICES[2]]);
    kinds.extend(kinds_from(rng, n - few, &LINKS));
    let mut edges = Vec::new();
    for (start, length) in runs(rng, n - few, 14) {
        let start = few + start;
        if rng.chance(1, 5) {
            edges.extend(ring(start, length));
            continue;
        }
        edges.push((rng.below(few), start));
        edges.extend(line(start, length));
        edges.push((start + length - 1, rng.below(few)));
    }
    Sketch::new(kinds, edges)
}

/// Rings of wires, conductors and repeaters alone; few of them are joined to the next.
pub fn compressed_rings(rng: &mut Rng, n: usize) -> Sketch {
    let mut sketch = Sketch::default();
    for (start, length) in runs(rng, n, 12) {
        let from: &[u8] = if rng.chance(1, 2) { &LINKS } else { &PASSIVE };
        sketch.kinds.extend(kinds_from(rng, length, from));
        sketch.edges.extend(ring(start, length));
        if start > 0 && rng.chance(1, 6) {
            sketch.edges.push((start - 1, start));
        }
    }
    sketch
}
