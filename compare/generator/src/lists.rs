//! The ten number lists by which a scene is lent: seven of its components, three of its connections.

/// A connection of this transfer is a support, every other one an edge.
pub const SUPPORT: u8 = 6;

/// The delay word of a component without one.
pub const ABSENT_DELAY: u16 = 256;

pub const LISTS: usize = 10;

#[derive(Clone, Debug, Default, Eq, PartialEq)]
pub struct SceneLists {
    pub ids: Vec<u64>,
    pub kinds: Vec<u8>,
    pub delays: Vec<u16>,
    pub locked: Vec<u8>,
    pub xs: Vec<i32>,
    pub ys: Vec<i32>,
    pub zs: Vec<i32>,
    pub sources: Vec<u64>,
    pub sinks: Vec<u64>,
    pub transfers: Vec<u8>,
}

impl SceneLists {
    pub fn push_component(
        &mut self,
        id: u64,
        kind: u8,
        delay: u16,
        locked: u8,
        [x, y, z]: [i32; 3],
    ) {
        self.ids.push(id);
        self.kinds.push(kind);
        self.delays.push(delay);
        self.locked.push(locked);
        self.xs.push(x);
        self.ys.push(y);
        self.zs.push(z);
    }

    pub fn push_connection(&mut self, source: u64, sink: u64, transfer: u8) {
        self.sources.push(source);
        self.sinks.push(sink);
        self.transfers.push(transfer);
    }

    /// Makes one list, by its number from 0 to 9, longer by a zero or shorter.
    pub fn resize_list(&mut self, list: usize, length: usize) {
        match list {
            0 => self.ids.resize(length, 0),
            1 => self.kinds.resize(length, 0),
            2 => self.delays.resize(length, 0),
            3 => self.locked.resize(length, 0),
            4 => self.xs.resize(length, 0),
            5 => self.ys.resize(length, 0),
            6 => self.zs.resize(length, 0),
            7 => self.sources.resize(length, 0),
            8 => self.sinks.resize(length, 0),
            _ => self.transfers.resize(length, 0),
        }
    }

    pub fn lengths(&self) -> [usize; LISTS] {
        [
            self.ids.len(),
            self.kinds.len(),
            self.delays.len(),
            self.locked.len(),
            self.xs.len(),
            self.ys.len(),
            self.zs.len(),
            self.sources.len(),
            self.sinks.len(),
            self.transfers.len(),
        ]
    }
}
