//! Every small trace, every contract of a small pulse, and every small trace with faulty rows or
//! lengths.
use super::lists::{
    Contract, INTENTIONAL_PULSE, LISTS, MAXIMUM_PULSE_WIDTH, STABLE, STEADY_STATE_ONLY, TraceLists,
};
use crate::small::rows;

/// The higher one is named first by half of the traces.
const COMPONENTS: [u64; 2] = [2, u64::MAX];
const TICKS: usize = 3;
/// Component, tick and level of an event.
const EVENTS: usize = 2 * TICKS * 2;

/// Events of two components, at ticks 0 to 2, of both levels: all of up to so many, each trace
/// under contracts that change from one to the next.
pub fn traces(most: u32) -> impl Iterator<Item = TraceLists> {
    (0..=most).flat_map(|length| {
        (0..EVENTS.pow(length)).map(move |choice| {
            let mut lists = events(choice, length);
            lists.unit = (choice % 7 % 2) as u8;
            for contract in contracts_for(choice) {
                lists.push_contract(contract);
            }
            lists
        })
    })
}

fn events(mut choice: usize, length: u32) -> TraceLists {
    let mut lists = TraceLists::default();
    for _ in 0..length {
        let event = choice % EVENTS;
        choice /= EVENTS;
        let (component, tick) = (COMPONENTS[event % 2], event / 2 % TICKS);
        lists.push_event(tick as u64, component, (event / 2 / TICKS) as u8);
    }
    lists
}

/// None, one or both components have a contract, each of a kind of its own.
fn contracts_for(choice: usize) -> Vec<Contract> {
    let kinds = [choice % 11, choice / 11 % 11];
    let with = |(kind, component)| KINDS.get(kind).map(|kind| Contract { component, ..*kind });
    kinds.into_iter().zip(COMPONENTS).filter_map(with).collect()
}

/// Of the width 1 or 2, which a pulse of the small traces has.
const KINDS: [Contract; 10] = [
    contract(STEADY_STATE_ONLY, 0, 0, 0, [0, 0]),
    contract(STABLE, 0, 9, 9, [0, 0]),
    contract(STABLE, 1, 9, 9, [0, 0]),
    contract(INTENTIONAL_PULSE, 9, 0, 0, [1, 1]),
    contract(INTENTIONAL_PULSE, 9, 1, 1, [1, 2]),
    contract(INTENTIONAL_PULSE, 9, 1, 0, [2, 2]),
    contract(INTENTIONAL_PULSE, 9, 0, 1, [2, 1]),
    contract(MAXIMUM_PULSE_WIDTH, 9, 0, 0, [9, 1]),
    contract(MAXIMUM_PULSE_WIDTH, 9, 0, 1, [9, 2]),
    contract(MAXIMUM_PULSE_WIDTH, 9, 1, 0, [9, 1]),
];

const fn contract(intent: u8, powered: u8, polarity: u8, unit: u8, widths: [u64; 2]) -> Contract {
    let [smallest, largest] = widths;
    Contract {
        component: 0,
        intent,
        powered,
        polarity,
        unit,
        smallest,
        largest,
    }
}

/// A single pulse of each polarity, unit and width of 1 or 2, and of the largest width, under every
/// contract with good and bad codes and widths.
pub fn contracts() -> impl Iterator<Item = TraceLists> {
    pulses().into_iter().flat_map(|(pulse, width)| {
        let widths = [0, width - 1, width, width.wrapping_add(1), u64::MAX];
        let codes = rows(&[0, 1, 2], 3);
        (0..=4).flat_map(move |intent| {
            let pulse = pulse.clone();
            codes.clone().into_iter().flat_map(move |codes| {
                let pulse = pulse.clone();
                rows(&widths, 2).into_iter().map(move |widths| {
                    pulse.with_contracts([Contract {
                        component: 5,
                        intent,
                        powered: codes[0],
                        polarity: codes[1],
                        unit: codes[2],
                        smallest: widths[0],
                        largest: widths[1],
                    }])
                })
            })
        })
    })
}

/// Each with its width. The first event comes last in time, which changes nothing.
fn pulses() -> Vec<(TraceLists, u64)> {
    let kinds = rows(&[0, 1], 2);
    let of = |kind: &Vec<u8>| {
        [(7, 8), (7, 9), (0, u64::MAX)].map(|(from, to)| {
            let mut lists = TraceLists {
                unit: kind[0],
                ..TraceLists::default()
            };
            lists.push_event(u64::MAX, 5, 1 - kind[1]);
            lists.push_event(from, 5, kind[1]);
            lists.push_event(to, 5, 1 - kind[1]);
            (lists, to - from)
        })
    };
    kinds.iter().flat_map(of).collect()
}

/// Three contracts that are good or bad in every way together, over one pulse.
pub fn faulty_contracts() -> impl Iterator<Item = TraceLists> {
    let good = Contract {
        intent: STABLE,
        powered: 1,
        polarity: 9,
        unit: 9,
        ..Contract::default()
    };
    let kinds = [
        good,
        Contract { intent: 4, ..good },
        Contract { powered: 2, ..good },
        Contract {
            intent: 0,
            powered: 2,
            ..good
        },
        Contract {
            intent: INTENTIONAL_PULSE,
            polarity: 2,
            unit: 1,
            ..good
        },
        Contract {
            intent: MAXIMUM_PULSE_WIDTH,
            polarity: 1,
            unit: 2,
            ..good
        },
    ];
    let with = |component| kinds.map(|kind| Contract { component, ..kind });
    let each = [3, 5, u64::MAX].map(with).concat();
    let (pulse, _) = pulses().swap_remove(0);
    rows(&each, 3)
        .into_iter()
        .map(move |row| pulse.with_contracts(row))
}

/// Three events with good and bad levels under good and bad units, with and without a bad contract.
pub fn faulty_events() -> impl Iterator<Item = TraceLists> {
    rows(&[0, 1, 2, 255], 3).into_iter().flat_map(|levels| {
        [0, 1, 2, 255].into_iter().flat_map(move |unit| {
            let mut lists = TraceLists {
                unit,
                ..TraceLists::default()
            };
            for (tick, level) in levels.iter().enumerate() {
                lists.push_event(tick as u64, 5, *level);
            }
            let bad = Contract {
                intent: 4,
                ..Contract::default()
            };
            [lists.clone(), lists.with_contracts([bad])]
        })
    })
}

/// The ten lists, each of one or two entries in every way together.
pub fn lengths() -> impl Iterator<Item = TraceLists> {
    (0..1usize << LISTS).map(|choice| {
        let mut lists = TraceLists::default();
        for list in 0..LISTS {
            lists.resize_list(list, 1 + (choice >> list & 1));
        }
        lists
    })
}
