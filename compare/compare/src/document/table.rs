//! "Kind table".
use generator::lists::{ABSENT_DELAY, SceneLists};

#[derive(Clone, Copy, Eq, PartialEq)]
pub enum Node {
    Source,
    Wire,
    Inverter,
    Delay,
    Comparator,
    Actuator,
    Conductor,
}

pub fn node(kind: u8) -> Node {
    match kind {
        0 | 1 | 2 | 6 => Node::Conductor,
        3 | 4 | 5 | 7 => Node::Source,
        8 => Node::Wire,
        9 => Node::Inverter,
        10 => Node::Delay,
        11 => Node::Comparator,
        _ => Node::Actuator,
    }
}

/// The delay of component i: "own; absent 1" of a repeater.
pub fn delay(lists: &SceneLists, i: usize) -> u32 {
    match (lists.kinds[i], lists.delays[i]) {
        (10, ABSENT_DELAY) => 1,
        (10, own) => u32::from(own),
        (9 | 12, _) => 1,
        _ => 0,
    }
}

/// The number of the edge behaviour in the Rust's order: Immediate, DelayedForward, DelayedInvert,
/// Analog, Mechanical, OrderSensitive.
pub fn behavior(kind: u8) -> u8 {
    match kind {
        8 => 5,
        9 => 2,
        10 => 1,
        11 => 3,
        12 => 4,
        _ => 0,
    }
}

/// "Kinds 9 to 12 are devices": the number of what the device means, in the Rust's order.
pub fn semantics(kind: u8) -> Option<u8> {
    match kind {
        9 => Some(1),
        10 => Some(0),
        11 => Some(2),
        12 => Some(3),
        _ => None,
    }
}
