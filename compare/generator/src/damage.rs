//! Faults for good scenes. Several may be made in one scene, so that the order of refusals shows.
use crate::fill::{absent_id, push_any_component};
use crate::kinds::ALL;
use crate::lists::{LISTS, SUPPORT, SceneLists};
use crate::rng::Rng;

/// In the order in which they are made: sizes first, since they add good rows, and lengths of
/// single lists last.
#[derive(Clone, Copy, Debug, Eq, Ord, PartialEq, PartialOrd)]
pub enum Fault {
    Components(usize),
    Connections(usize),
    EqualIds,
    Kind(u8),
    Delay(u16),
    Locked(u8),
    AbsentSource,
    AbsentSink,
    /// No fault in truth: a support may name absent ids.
    AbsentSupport,
    Transfer(u8),
    Short(usize),
    Long(usize),
}

const OF_COMPONENTS: [Fault; 8] = [
    Fault::EqualIds,
    Fault::Kind(13),
    Fault::Kind(255),
    Fault::Delay(257),
    Fault::Delay(512),
    Fault::Delay(65535),
    Fault::Locked(2),
    Fault::Locked(255),
];

const OF_CONNECTIONS: [Fault; 6] = [
    Fault::AbsentSource,
    Fault::AbsentSink,
    Fault::AbsentSupport,
    Fault::Transfer(7),
    Fault::Transfer(8),
    Fault::Transfer(255),
];

pub const COMPONENT_COUNTS: [usize; 3] = [511, 512, 513];
pub const CONNECTION_COUNTS: [usize; 3] = [2047, 2048, 2049];
/// Far beyond the limits.
pub const COMPONENTS_BEYOND: [usize; 2] = [1024, 4096];
pub const CONNECTIONS_BEYOND: [usize; 2] = [4096, 16384];

pub fn every_fault() -> Vec<Fault> {
    let mut all = Vec::new();
    all.extend(OF_COMPONENTS);
    all.extend(OF_CONNECTIONS);
    all.extend(COMPONENT_COUNTS.map(Fault::Components));
    all.extend(CONNECTION_COUNTS.map(Fault::Connections));
    all.extend((0..LISTS).map(Fault::Short));
    all.extend((0..LISTS).map(Fault::Long));
    all
}

/// Two to six faults. What comes early in the order of refusals hides the rest, so sizes and
/// lengths are seldom, and half of the time no component is faulty.
pub fn several_faults(rng: &mut Rng) -> Vec<Fault> {
    let components_too = rng.chance(1, 2);
    (0..rng.between(2, 6))
        .map(|_| match rng.below(40) {
            0 => Fault::Components(rng.pick(&COMPONENT_COUNTS)),
            1 => Fault::Connections(rng.pick(&CONNECTION_COUNTS)),
            2 => Fault::Short(rng.below(LISTS)),
            3 => Fault::Long(rng.below(LISTS)),
            4..=11 if components_too => Fault::EqualIds,
            12..=23 if components_too => rng.pick(&OF_COMPONENTS),
            _ => rng.pick(&OF_CONNECTIONS),
        })
        .collect()
}

/// Makes the faults, many of them in the same component or connection.
pub fn damage(rng: &mut Rng, lists: &mut SceneLists, faults: &[Fault]) {
    make_all(rng, lists, faults, make);
}

/// Makes faults of scenes or of traces, in their order, with one spot for all of them.
pub fn make_all<L, F: Copy + Ord>(
    rng: &mut Rng,
    lists: &mut L,
    faults: &[F],
    make: fn(&mut Rng, &mut L, F, usize),
) {
    let mut faults = faults.to_vec();
    faults.sort();
    let spot = rng.word() as usize;
    for fault in faults {
        make(rng, lists, fault, spot);
    }
}

fn make(rng: &mut Rng, lists: &mut SceneLists, fault: Fault, spot: usize) {
    match fault {
        Fault::Components(n) => resize_components(rng, lists, n),
        Fault::Connections(m) => resize_connections(rng, lists, m),
        Fault::EqualIds => repeat_id(rng, &mut lists.ids, spot),
        Fault::Kind(kind) => set(rng, &mut lists.kinds, spot, kind),
        Fault::Delay(delay) => set(rng, &mut lists.delays, spot, delay),
        Fault::Locked(locked) => set(rng, &mut lists.locked, spot, locked),
        Fault::Transfer(transfer) => set(rng, &mut lists.transfers, spot, transfer),
        Fault::AbsentSource => lose_end(rng, lists, spot, true),
        Fault::AbsentSink => lose_end(rng, lists, spot, false),
        Fault::AbsentSupport => lose_support(rng, lists, spot),
        Fault::Short(list) => lists.resize_list(list, lists.lengths()[list].saturating_sub(1)),
        Fault::Long(list) => lists.resize_list(list, lists.lengths()[list] + 1),
    }
}

/// The common spot or any other index; none of an empty list.
pub fn index(rng: &mut Rng, length: usize, spot: usize) -> Option<usize> {
    if length == 0 {
        return None;
    }
    Some(if rng.chance(1, 2) {
        spot % length
    } else {
        rng.below(length)
    })
}

pub fn set<T>(rng: &mut Rng, list: &mut [T], spot: usize, value: T) {
    if let Some(i) = index(rng, list.len(), spot) {
        list[i] = value;
    }
}

/// Gives an earlier component's id to one to three later ones.
fn repeat_id(rng: &mut Rng, ids: &mut [u64], spot: usize) {
    for _ in 0..rng.between(1, 3) {
        if let Some(later) = index(rng, ids.len(), spot)
            && later > 0
        {
            ids[later] = ids[rng.below(later)];
        }
    }
}

fn lose_end(rng: &mut Rng, lists: &mut SceneLists, spot: usize, source: bool) {
    if let Some(i) = index(rng, lists.transfers.len(), spot) {
        if lists.transfers[i] == SUPPORT {
            lists.transfers[i] = rng.below(6) as u8;
        }
        let ends = if source {
            &mut lists.sources
        } else {
            &mut lists.sinks
        };
        ends[i] = absent_id(rng, &lists.ids);
    }
}

fn lose_support(rng: &mut Rng, lists: &mut SceneLists, spot: usize) {
    if let Some(i) = index(rng, lists.transfers.len(), spot) {
        lists.transfers[i] = SUPPORT;
        lists.sources[i] = absent_id(rng, &lists.ids);
        lists.sinks[i] = absent_id(rng, &lists.ids);
    }
}

/// Leaves out components from the end, or adds good ones.
fn resize_components(rng: &mut Rng, lists: &mut SceneLists, n: usize) {
    for list in 0..7 {
        let length = lists.ids.len().min(n);
        lists.resize_list(list, length);
    }
    while lists.ids.len() < n {
        let id = absent_id(rng, &lists.ids);
        let kind = rng.pick(&ALL);
        push_any_component(rng, lists, id, kind);
    }
}

/// Leaves out connections from the end, or adds good ones; the scene has a component.
fn resize_connections(rng: &mut Rng, lists: &mut SceneLists, m: usize) {
    for list in 7..LISTS {
        lists.resize_list(list, lists.sources.len().min(m));
    }
    while lists.sources.len() < m {
        let (source, sink) = (rng.pick(&lists.ids), rng.pick(&lists.ids));
        lists.push_connection(source, sink, rng.below(7) as u8);
    }
}
