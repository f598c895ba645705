//! Faults for good traces. Several may be made in one trace, so that the order of refusals shows.
use super::contracts;
use super::lists::{EVENT_LISTS, INTENTIONAL_PULSE, LISTS, STABLE, TraceLists};
use crate::damage::{index, make_all, set};
use crate::rng::Rng;

/// In the order in which they are made: sizes first, since they add good rows, and lengths of
/// single lists last.
#[derive(Clone, Copy, Debug, Eq, Ord, PartialEq, PartialOrd)]
pub enum Fault {
    Events(usize),
    Contracts(usize),
    Unit(u8),
    Powered(u8),
    Intent(u8),
    /// Of a contract whose intent uses the field.
    Wanted(u8),
    Polarity(u8),
    ContractUnit(u8),
    /// A contract has the component of the one before, a lower one, or the lowest.
    EqualComponents,
    FallingComponents,
    LowestComponent,
    Short(usize),
    Long(usize),
}

const OF_EVENTS: [Fault; 3] = [Fault::Powered(2), Fault::Powered(3), Fault::Powered(255)];

const OF_CONTRACTS: [Fault; 11] = [
    Fault::Intent(4),
    Fault::Intent(255),
    Fault::Wanted(2),
    Fault::Wanted(255),
    Fault::Polarity(2),
    Fault::Polarity(255),
    Fault::ContractUnit(2),
    Fault::ContractUnit(255),
    Fault::EqualComponents,
    Fault::FallingComponents,
    Fault::LowestComponent,
];

const UNITS: [Fault; 2] = [Fault::Unit(2), Fault::Unit(255)];

pub const EVENT_COUNTS: [usize; 3] = [4095, 4096, 4097];
pub const CONTRACT_COUNTS: [usize; 3] = [511, 512, 513];
/// Far beyond the limits.
pub const EVENTS_BEYOND: usize = 9000;
pub const CONTRACTS_BEYOND: usize = 1500;

/// But for sizes.
pub fn every_fault() -> Vec<Fault> {
    let mut all = Vec::new();
    all.extend(UNITS);
    all.extend(OF_EVENTS);
    all.extend(OF_CONTRACTS);
    all.extend((0..LISTS).map(Fault::Short));
    all.extend((0..LISTS).map(Fault::Long));
    all
}

/// Two to six faults. What comes early in the order of refusals hides the rest, so sizes, lengths
/// and units are seldom, and half of the time no event is faulty.
pub fn several_faults(rng: &mut Rng) -> Vec<Fault> {
    let events_too = rng.chance(1, 2);
    (0..rng.between(2, 6))
        .map(|_| match rng.below(60) {
            0 => Fault::Contracts(rng.pick(&CONTRACT_COUNTS)),
            1 => Fault::Short(rng.below(LISTS)),
            2 => Fault::Long(rng.below(LISTS)),
            3 | 4 => rng.pick(&UNITS),
            5..=20 if events_too => rng.pick(&OF_EVENTS),
            _ => rng.pick(&OF_CONTRACTS),
        })
        .collect()
}

/// Makes the faults, many of them in the same event or contract.
pub fn damage(rng: &mut Rng, lists: &mut TraceLists, faults: &[Fault]) {
    make_all(rng, lists, faults, make);
}

fn make(rng: &mut Rng, lists: &mut TraceLists, fault: Fault, spot: usize) {
    let contract = index(rng, lists.contract_components.len(), spot);
    match (fault, contract) {
        (Fault::Events(n), _) => resize_events(rng, lists, n),
        (Fault::Contracts(n), _) => contracts::resize(rng, lists, n),
        (Fault::Unit(unit), _) => lists.unit = unit,
        (Fault::Powered(powered), _) => set(rng, &mut lists.powered, spot, powered),
        (Fault::Short(list), _) => lists.resize_list(list, lists.lengths()[list].saturating_sub(1)),
        (Fault::Long(list), _) => lists.resize_list(list, lists.lengths()[list] + 1),
        (_, Some(i)) => damage_contract(rng, lists, fault, i),
        (_, None) => {}
    }
}

fn damage_contract(rng: &mut Rng, lists: &mut TraceLists, fault: Fault, i: usize) {
    let pulse = INTENTIONAL_PULSE + rng.below(2) as u8;
    let components = &mut lists.contract_components;
    // the first has none before it
    let later = i.max(1);
    match fault {
        Fault::Intent(intent) => lists.contract_intents[i] = intent,
        Fault::Wanted(powered) => {
            lists.contract_intents[i] = STABLE;
            lists.contract_powered[i] = powered;
        }
        Fault::Polarity(polarity) => {
            lists.contract_intents[i] = pulse;
            lists.contract_polarities[i] = polarity;
        }
        Fault::ContractUnit(unit) => {
            lists.contract_intents[i] = pulse;
            lists.contract_units[i] = unit;
        }
        _ if later == components.len() => {}
        Fault::EqualComponents => components[later] = components[later - 1],
        Fault::FallingComponents => components.swap(later - 1, later),
        Fault::LowestComponent => components[later] = 0,
        _ => {}
    }
}

/// Leaves out events from the end, or adds good ones of the components that the trace names.
fn resize_events(rng: &mut Rng, lists: &mut TraceLists, n: usize) {
    for list in 0..EVENT_LISTS {
        let length = lists.lengths()[list].min(n);
        lists.resize_list(list, length);
    }
    let known = lists.components.clone();
    while lists.ticks.len() < n {
        let component = if known.is_empty() {
            7
        } else {
            rng.pick(&known)
        };
        let tick = lists.ticks.len() as u64;
        lists.push_event(tick, component, rng.below(2) as u8);
    }
}
