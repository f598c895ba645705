//! Every small scene whose rows have good and bad values, and every small scene whose lists have
//! good and bad lengths.
use crate::lists::{ABSENT_DELAY, LISTS, SceneLists};
use crate::small::rows;

/// The id that no component has.
const ABSENT: u64 = 9;

/// Three components that are good or bad in every way together, under one connection.
pub fn components() -> impl Iterator<Item = SceneLists> {
    let choices: Vec<u8> = (0..16).collect();
    rows(&choices, 3).into_iter().flat_map(|choices| {
        [(1, 1, 5), (1, 1, 7), (ABSENT, 1, 5)].map(|(source, sink, transfer)| {
            let mut lists = SceneLists::default();
            for choice in &choices {
                push_chosen(&mut lists, *choice);
            }
            lists.push_connection(source, sink, transfer);
            lists
        })
    })
}

/// A component whose id and values are chosen by the four bits.
fn push_chosen(lists: &mut SceneLists, choice: u8) {
    let bit = |place: u8| choice >> place & 1;
    let delay = ABSENT_DELAY + u16::from(bit(2));
    lists.push_component(
        u64::from(1 + bit(0)),
        12 + bit(1),
        delay,
        1 + bit(3),
        [0, 0, 0],
    );
}

/// Three connections that are good or bad in every way together, between two good components.
pub fn connections() -> impl Iterator<Item = SceneLists> {
    let ends: Vec<_> = rows(&[1, 2, ABSENT], 2);
    let each: Vec<_> = ends
        .iter()
        .flat_map(|e| [5, 6, 7].map(|transfer| (e[0], e[1], transfer)))
        .collect();
    rows(&each, 3).into_iter().map(|connections| {
        let mut lists = SceneLists::default();
        lists.push_component(2, 9, 0, 0, [0, 0, 0]);
        lists.push_component(1, 12, ABSENT_DELAY, 1, [0, 0, 0]);
        for (source, sink, transfer) in connections {
            lists.push_connection(source, sink, transfer);
        }
        lists
    })
}

/// The ten lists, each of one or two entries in every way together.
pub fn lengths() -> impl Iterator<Item = SceneLists> {
    (0..1usize << LISTS).map(|choice| {
        let mut lists = SceneLists::default();
        for list in 0..LISTS {
            lists.resize_list(list, 1 + (choice >> list & 1));
        }
        lists
    })
}
