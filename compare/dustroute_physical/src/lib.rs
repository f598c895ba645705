//! Stand-in for `dustroute_physical`: the types and fields that `physical_projection.rs` and
//! `transient.rs` use, and no others. Their shapes are those of `circuit.rs` and `scene.rs`;
//! `Pos`, `Block` and `BlockKind` are declared in files that are not at hand, and are made after
//! their uses there and after the kind table of document 01, whose codes are the order here.
use std::collections::BTreeMap;

/// `circuit.rs` has `usize`, which is `u64` on the machines in question.
#[derive(Clone, Copy, Debug, Eq, Hash, Ord, PartialEq, PartialOrd)]
pub struct ComponentId(pub u64);

#[derive(Clone, Copy, Debug, Eq, Hash, Ord, PartialEq, PartialOrd)]
pub struct Pos {
    pub x: i32,
    pub y: i32,
    pub z: i32,
}

/// In the order of the kind table: `kind as u8` is the kind's code.
#[derive(Clone, Copy, Debug, Eq, Hash, Ord, PartialEq, PartialOrd)]
pub enum BlockKind {
    Air,
    Solid,
    Transparent,
    Lever,
    Button,
    PressurePlate,
    RedstoneLamp,
    RedstoneBlock,
    RedstoneWire,
    RedstoneTorch,
    Repeater,
    Comparator,
    Piston,
}

impl BlockKind {
    pub const ALL: [Self; 13] = [
        Self::Air,
        Self::Solid,
        Self::Transparent,
        Self::Lever,
        Self::Button,
        Self::PressurePlate,
        Self::RedstoneLamp,
        Self::RedstoneBlock,
        Self::RedstoneWire,
        Self::RedstoneTorch,
        Self::Repeater,
        Self::Comparator,
        Self::Piston,
    ];
}

#[derive(Clone, Debug, Eq, PartialEq)]
pub struct Block {
    pub kind: BlockKind,
    pub delay: Option<u8>,
    pub observed_properties: BTreeMap<String, String>,
}

#[derive(Clone, Debug, Eq, PartialEq)]
pub struct SceneComponent {
    pub id: ComponentId,
    pub pos: Pos,
    pub block: Block,
}

#[derive(Clone, Copy, Debug, Eq, Hash, Ord, PartialEq, PartialOrd)]
pub struct PortRef {
    pub component: ComponentId,
}

/// In the Rust's order: `transfer as u8` is the transfer code.
#[derive(Clone, Copy, Debug, Eq, PartialEq)]
pub enum TransferKind {
    DustPropagation,
    DirectSignal,
    WeakPower,
    StrongPower,
    DirectionalDevice,
    SideControl,
    StructuralSupport,
}

impl TransferKind {
    pub const ALL: [Self; 7] = [
        Self::DustPropagation,
        Self::DirectSignal,
        Self::WeakPower,
        Self::StrongPower,
        Self::DirectionalDevice,
        Self::SideControl,
        Self::StructuralSupport,
    ];
}

#[derive(Clone, Debug, Eq, PartialEq)]
pub struct PortConnection {
    pub source: PortRef,
    pub sink: PortRef,
    pub transfer: TransferKind,
}

#[derive(Clone, Debug, Eq, PartialEq)]
pub struct PhysicalScene {
    pub components: Vec<SceneComponent>,
    pub connections: Vec<PortConnection>,
}
