//! The kind codes that shapes name.

pub const SOLID: u8 = 1;
pub const LEVER: u8 = 3;
pub const LAMP: u8 = 6;
pub const WIRE: u8 = 8;
pub const TORCH: u8 = 9;
pub const REPEATER: u8 = 10;
pub const COMPARATOR: u8 = 11;
pub const PISTON: u8 = 12;

pub const ALL: [u8; 13] = [0, 1, 2, 3, 4, 5, 6, 7, 8, 9, 10, 11, 12];

/// Wires and conductors, dust being the most common.
pub const PASSIVE: [u8; 6] = [WIRE, WIRE, WIRE, SOLID, LAMP, 0];

pub const DEVICES: [u8; 4] = [TORCH, REPEATER, COMPARATOR, PISTON];
