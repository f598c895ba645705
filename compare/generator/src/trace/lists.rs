//! The ten number lists by which a trace is lent, three of its events and seven of its contracts,
//! and its time unit.

/// The lists of the events come first.
pub const EVENT_LISTS: usize = 3;
pub const LISTS: usize = 10;

pub const STEADY_STATE_ONLY: u8 = 0;
pub const STABLE: u8 = 1;
pub const INTENTIONAL_PULSE: u8 = 2;
pub const MAXIMUM_PULSE_WIDTH: u8 = 3;

#[derive(Clone, Debug, Default, Eq, PartialEq)]
pub struct TraceLists {
    pub unit: u8,
    pub ticks: Vec<u64>,
    pub components: Vec<u64>,
    pub powered: Vec<u8>,
    pub contract_components: Vec<u64>,
    pub contract_intents: Vec<u8>,
    pub contract_powered: Vec<u8>,
    pub contract_polarities: Vec<u8>,
    pub contract_units: Vec<u8>,
    pub contract_smallest: Vec<u64>,
    pub contract_largest: Vec<u64>,
}

/// An entry of each of a trace's contract lists.
#[derive(Clone, Copy, Debug, Default, Eq, PartialEq)]
pub struct Contract {
    pub component: u64,
    pub intent: u8,
    pub powered: u8,
    pub polarity: u8,
    pub unit: u8,
    pub smallest: u64,
    pub largest: u64,
}

impl TraceLists {
    pub fn push_event(&mut self, tick: u64, component: u64, powered: u8) {
        self.ticks.push(tick);
        self.components.push(component);
        self.powered.push(powered);
    }

    pub fn push_contract(&mut self, contract: Contract) {
        self.contract_components.push(contract.component);
        self.contract_intents.push(contract.intent);
        self.contract_powered.push(contract.powered);
        self.contract_polarities.push(contract.polarity);
        self.contract_units.push(contract.unit);
        self.contract_smallest.push(contract.smallest);
        self.contract_largest.push(contract.largest);
    }

    /// Contract i of lists that all have one.
    pub fn contract(&self, i: usize) -> Contract {
        Contract {
            component: self.contract_components[i],
            intent: self.contract_intents[i],
            powered: self.contract_powered[i],
            polarity: self.contract_polarities[i],
            unit: self.contract_units[i],
            smallest: self.contract_smallest[i],
            largest: self.contract_largest[i],
        }
    }

    /// The contracts of lists of one length.
    pub fn contracts(&self) -> impl Iterator<Item = Contract> {
        (0..self.contract_components.len()).map(|i| self.contract(i))
    }

    /// The same events under other contracts.
    pub fn with_contracts(&self, contracts: impl IntoIterator<Item = Contract>) -> Self {
        let mut lists = Self {
            unit: self.unit,
            ticks: self.ticks.clone(),
            components: self.components.clone(),
            powered: self.powered.clone(),
            ..Self::default()
        };
        for contract in contracts {
            lists.push_contract(contract);
        }
        lists
    }

    /// Makes one list, by its number from 0 to 9, longer by zeros or shorter.
    pub fn resize_list(&mut self, list: usize, length: usize) {
        match list {
            0 => self.ticks.resize(length, 0),
            1 => self.components.resize(length, 0),
            2 => self.powered.resize(length, 0),
            3 => self.contract_components.resize(length, 0),
            4 => self.contract_intents.resize(length, 0),
            5 => self.contract_powered.resize(length, 0),
            6 => self.contract_polarities.resize(length, 0),
            7 => self.contract_units.resize(length, 0),
            8 => self.contract_smallest.resize(length, 0),
            _ => self.contract_largest.resize(length, 0),
        }
    }

    pub fn lengths(&self) -> [usize; LISTS] {
        [
            self.ticks.len(),
            self.components.len(),
            self.powered.len(),
            self.contract_components.len(),
            self.contract_intents.len(),
            self.contract_powered.len(),
            self.contract_polarities.len(),
            self.contract_units.len(),
            self.contract_smallest.len(),
            self.contract_largest.len(),
        ]
    }
}
