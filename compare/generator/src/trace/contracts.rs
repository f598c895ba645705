//! Contracts for random traces: of every intent, with widths about those that the trace has, and
//! with any values in the fields that the intent doesn't use.
use std::collections::BTreeMap;

use super::lists::{
    Contract, INTENTIONAL_PULSE, MAXIMUM_PULSE_WIDTH, STABLE, STEADY_STATE_ONLY, TraceLists,
};
use crate::fill::absent_id;
use crate::rng::Rng;

pub const MOST: usize = 512;

/// How far the ticks of a component's successive events lie apart: what widths its pulses may have.
type Widths = BTreeMap<u64, Vec<u64>>;

fn widths(lists: &TraceLists) -> Widths {
    let mut last = BTreeMap::new();
    let mut widths = Widths::new();
    for (component, tick) in lists.components.iter().zip(&lists.ticks) {
        let known = widths.entry(*component).or_default();
        if let Some(before) = last.insert(component, tick) {
            known.push(tick.wrapping_sub(*before));
        }
    }
    widths
}

/// Gives contracts to some components of the trace or to all, and to a few that it doesn't name;
/// 512 in all at most.
pub fn add(rng: &mut Rng, lists: &mut TraceLists) {
    let widths = widths(lists);
    let named: Vec<_> = widths.keys().copied().collect();
    let of = rng.pick(&[0, 3, 4, 4]);
    let mut chosen = named.clone();
    chosen.retain(|_| rng.chance(of, 4));
    for _ in 0..rng.pick(&[0, 1, 3]) {
        chosen.push(other_id(rng, &named));
    }
    // components of the trace are left out anywhere
    while chosen.len() > MOST {
        chosen.swap_remove(rng.below(chosen.len()));
    }
    give(rng, lists, &widths, chosen);
}

/// Gives contracts to all components of the trace, or to 512 of them.
pub fn add_all(rng: &mut Rng, lists: &mut TraceLists) {
    let widths = widths(lists);
    let chosen = widths.keys().copied().take(MOST).collect();
    give(rng, lists, &widths, chosen);
}

/// Mostly an id that is not among these, often one that differs from one of them in one bit.
fn other_id(rng: &mut Rng, ids: &[u64]) -> u64 {
    if ids.is_empty() || rng.chance(1, 2) {
        return absent_id(rng, ids);
    }
    rng.pick(ids) ^ (1 << rng.below(64))
}

/// So many contracts: those that the trace has but for the last ones, or more of them.
pub fn resize(rng: &mut Rng, lists: &mut TraceLists, count: usize) {
    let widths = widths(lists);
    let mut chosen = lists.contract_components.clone();
    chosen.truncate(count);
    while chosen.len() < count {
        chosen.push(absent_id(rng, &chosen));
    }
    give(rng, lists, &widths, chosen);
}

/// These components get contracts, by rising id.
fn give(rng: &mut Rng, lists: &mut TraceLists, widths: &Widths, mut chosen: Vec<u64>) {
    chosen.sort_unstable();
    chosen.dedup();
    let none = Vec::new();
    let contracts: Vec<_> = chosen
        .iter()
        .map(|id| any(rng, lists.unit, *id, widths.get(id).unwrap_or(&none)))
        .collect();
    *lists = lists.with_contracts(contracts);
}

/// One that fits the trace's unit, mostly.
fn any(rng: &mut Rng, unit: u8, component: u64, widths: &[u64]) -> Contract {
    let about = match widths {
        [] => 2,
        widths => rng.pick(widths),
    };
    let contract = Contract {
        component,
        intent: rng.below(4) as u8,
        powered: rng.below(2) as u8,
        polarity: rng.below(2) as u8,
        unit: unit ^ u8::from(rng.chance(1, 6)),
        smallest: smallest(rng, about),
        largest: largest(rng, about),
    };
    unused_filled(rng, contract)
}

/// At the width, beside it, or at an end.
fn width(rng: &mut Rng, about: u64) -> u64 {
    let beside = [about.wrapping_sub(1), about, about.wrapping_add(1)];
    match rng.below(8) {
        0 => rng.pick(&[0, u64::MAX]),
        1 => rng.word(),
        _ => rng.pick(&beside),
    }
}

fn smallest(rng: &mut Rng, about: u64) -> u64 {
    if rng.chance(1, 3) {
        return 0;
    }
    width(rng, about)
}

fn largest(rng: &mut Rng, about: u64) -> u64 {
    if rng.chance(1, 4) {
        return u64::MAX;
    }
    width(rng, about)
}

/// Any value, most of them such as a used field could not have.
fn garbage(rng: &mut Rng) -> u8 {
    let any = rng.word() as u8;
    rng.pick(&[0, 1, 2, 3, 255, any])
}

/// The same with any values in the fields that its intent doesn't use.
pub fn unused_filled(rng: &mut Rng, contract: Contract) -> Contract {
    let mut filled = Contract {
        powered: garbage(rng),
        polarity: garbage(rng),
        unit: garbage(rng),
        smallest: rng.word(),
        largest: rng.word(),
        ..contract
    };
    match contract.intent {
        STEADY_STATE_ONLY => {}
        STABLE => filled.powered = contract.powered,
        INTENTIONAL_PULSE => {
            let powered = filled.powered;
            filled = Contract {
                powered,
                ..contract
            };
        }
        MAXIMUM_PULSE_WIDTH => {
            let (powered, smallest) = (filled.powered, filled.smallest);
            filled = Contract {
                powered,
                smallest,
                ..contract
            };
        }
        _ => {}
    }
    filled
}
