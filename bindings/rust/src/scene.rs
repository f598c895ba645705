//! Components and connections.
use crate::raw::{self, ABSENT_DELAY, BlockKind, TransferKind};

/// Where a block stands.
#[derive(Clone, Copy, Debug, Default, Eq, Hash, PartialEq)]
pub struct Pos {
    /// Along the first axis.
    pub x: i32,
    /// Along the second, the height.
    pub y: i32,
    /// Along the third.
    pub z: i32,
}

/// A block of a build. The codes may be any numbers; those out of range are refused.
#[derive(Clone, Copy, Debug, Eq, PartialEq)]
pub struct Component {
    /// Its own among the components.
    pub id: u64,
    /// The code of a [`BlockKind`].
    pub kind: u8,
    /// 0 to 255, or 256 where it is absent. A repeater alone has a delay of its own.
    pub delay: u16,
    /// 1 for a repeater that is locked, else 0.
    pub locked: u8,
    /// Where it stands.
    pub pos: Pos,
}

impl Component {
    /// Without a delay, not locked, at 0, 0, 0.
    pub fn new(id: u64, kind: BlockKind) -> Self {
        Self {
            id,
            kind: kind.code(),
            delay: ABSENT_DELAY as u16,
            locked: 0,
            pos: Pos::default(),
        }
    }

    /// The same with a delay.
    pub fn with_delay(self, delay: u8) -> Self {
        Self {
            delay: delay.into(),
            ..self
        }
    }

    /// The same, locked.
    pub fn locked(self) -> Self {
        Self { locked: 1, ..self }
    }

    /// The same at another position.
    pub fn at(self, x: i32, y: i32, z: i32) -> Self {
        Self {
            pos: Pos { x, y, z },
            ..self
        }
    }
}

/// A way that a signal takes from one component to another.
#[derive(Clone, Copy, Debug, Eq, Hash, PartialEq)]
pub struct Connection {
    /// The id of the component that it leaves.
    pub source: u64,
    /// The id of the component that it enters.
    pub sink: u64,
    /// The code of a [`TransferKind`], or any other number, which is refused.
    pub transfer: u8,
}

impl Connection {
    /// A connection of this kind.
    pub fn new(source: u64, sink: u64, transfer: TransferKind) -> Self {
        Self {
            source,
            sink,
            transfer: transfer.code(),
        }
    }
}

/// A build: what [`Scene::report`] is about.
#[derive(Clone, Debug, Default, Eq, PartialEq)]
pub struct Scene {
    /// At most 512.
    pub components: Vec<Component>,
    /// At most 2,048.
    pub connections: Vec<Connection>,
}

impl Scene {
    /// The scene as number lists, which the calls of [`raw`] are lent.
    pub fn lists(&self) -> raw::Scene {
        let mut lists = raw::Scene::default();
        for component in &self.components {
            push_component(&mut lists.components, component);
        }
        for connection in &self.connections {
            push_connection(&mut lists.connections, connection);
        }
        lists
    }
}

fn push_component(lists: &mut raw::Components, component: &Component) {
    lists.ids.push(component.id);
    lists.kinds.push(component.kind);
    lists.delays.push(component.delay);
    lists.locked.push(component.locked);
    lists.xs.push(component.pos.x);
    lists.ys.push(component.pos.y);
    lists.zs.push(component.pos.z);
}

fn push_connection(lists: &mut raw::Connections, connection: &Connection) {
    lists.sources.push(connection.source);
    lists.sinks.push(connection.sink);
    lists.transfers.push(connection.transfer);
}
