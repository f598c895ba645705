//! One round of random texts.
use compare::order::shuffle_connections;
use compare::round::{any_scene, scene};
use compare::shrink::small_numbers;
use generator::damage::{Fault, damage, several_faults};
use generator::lists::SceneLists;
use generator::rng::Rng;
use generator::shapes::SHAPES;

use crate::case::{Case, cases};
use crate::damage::DAMAGES;
use crate::form::LONGEST;
use crate::written::written;

/// Smallest and largest number of components, and how many scenes of each shape a round has.
const SIZES: [(usize, usize, usize); 4] = [(1, 8, 8), (9, 40, 3), (41, 200, 1), (200, 512, 1)];

/// How often a round makes each damage, and how often several together.
const EACH: usize = 30;
const SEVERAL: usize = 400;

/// Families of which every shape has texts.
pub const SHUFFLED: &str = "shuffled connections";
pub const TOO_LONG: &str = "too long";

/// The round depends on its seed alone.
pub fn round(seed: u64) -> Vec<Case> {
    let rng = &mut Rng::new(seed);
    let mut all = Vec::new();
    for shape in &SHAPES {
        for (least, most, count) in SIZES {
            for _ in 0..count {
                let n = rng.between(least, most);
                let lists = scene(rng, shape, n);
                all.extend(scenes(rng, shape.0, lists));
            }
        }
    }
    for _ in 0..400 {
        all.push(Case::new("faulty scenes", faulty(rng)));
    }
    for (name, damage) in DAMAGES {
        let texts: Vec<_> = (0..EACH)
            .map(|_| {
                let text = good(rng);
                damage(rng, &text)
            })
            .collect();
        all.extend(cases(name, texts));
    }
    for _ in 0..SEVERAL {
        all.push(Case::new("several damages", several(rng)));
    }
    all
}

/// A scene, as it is and with its connections shuffled. One that is too long for a text is also
/// written with small ids and without positions.
fn scenes(rng: &mut Rng, family: &'static str, mut lists: SceneLists) -> Vec<Case> {
    let mut all = Vec::new();
    if written(&lists).len() > LONGEST {
        all.push(Case::new(TOO_LONG, written(&lists)));
        small_numbers([&mut lists.ids, &mut lists.sources, &mut lists.sinks]);
        for list in [&mut lists.xs, &mut lists.ys, &mut lists.zs] {
            list.fill(0);
        }
    }
    let shuffled = shuffle_connections(rng, &lists);
    all.push(Case::new(family, written(&lists)));
    all.push(Case::new(SHUFFLED, written(&shuffled)));
    all
}

/// The text of a small scene.
fn good(rng: &mut Rng) -> Vec<u8> {
    let n = rng.between(1, 6);
    written(&any_scene(rng, n))
}

/// A scene with faults, its lists of equal lengths again. Half of the time the text is in the form:
/// a delay word and a flag that are none break it.
pub fn faulty(rng: &mut Rng) -> Vec<u8> {
    let n = rng.between(1, 12);
    let mut lists = any_scene(rng, n);
    let mut faults = several_faults(rng);
    if rng.chance(1, 2) {
        faults.retain(|fault| !matches!(fault, Fault::Delay(_) | Fault::Locked(_)));
    }
    damage(rng, &mut lists, &faults);
    let lengths = lists.lengths();
    for list in 0..lengths.len() {
        let length = if list < 7 { lengths[0] } else { lengths[7] };
        lists.resize_list(list, length);
    }
    written(&lists)
}

/// Two or three damages in one text.
fn several(rng: &mut Rng) -> Vec<u8> {
    let mut text = good(rng);
    for _ in 0..rng.between(2, 3) {
        let (_, damage) = rng.pick(&DAMAGES);
        if !text.is_empty() {
            text = damage(rng, &text);
        }
    }
    text
}
