//! Commands and the pins that ask for them.

pub const BANKS: usize = 4;

const CS: u32 = 1 << 16;
const RAS: u32 = 1 << 17;
const CAS: u32 = 1 << 18;
const WE: u32 = 1 << 19;
pub const A10: u32 = 1 << 10;
/// CKE low.
pub const LOW: u32 = 1 << 20;
pub const ADDRESS_PINS: u32 = 0x3fff;

/// The mode register and the extended one, by BA1,BA0.
pub const MODE_REGISTER: u32 = 0b00;
pub const EXTENDED_REGISTER: u32 = 0b10;

/// The banks a PRECHARGE names.
#[derive(Clone, Copy, Debug, PartialEq, Eq)]
pub enum Named {
    One(usize),
    All,
}

impl Named {
    pub fn names(self, bank: usize) -> bool {
        match self {
            Named::One(named) => named == bank,
            Named::All => true,
        }
    }
}

#[derive(Clone, Copy, Debug, PartialEq, Eq)]
pub enum Command {
    Deselect,
    Nop,
    Active {
        bank: usize,
        row: u32,
    },
    Read {
        bank: usize,
        address: u32,
        auto_precharge: bool,
    },
    Write {
        bank: usize,
        address: u32,
        auto_precharge: bool,
    },
    BurstTerminate,
    Precharge {
        banks: Named,
    },
    AutoRefresh,
    ModeRegisterSet {
        register: u32,
        address: u32,
    },
}

impl Command {
    pub fn of_pins(pins: u32) -> Command {
        if pins & CS != 0 {
            return Command::Deselect;
        }
        let address = pins & ADDRESS_PINS;
        let bank_pins = pins >> 14 & 3;
        let bank = bank_pins as usize;
        let a10 = pins & A10 != 0;
        let level = |pin: u32| u32::from(pins & pin != 0);
        match (level(RAS), level(CAS), level(WE)) {
            (0, 1, 1) => Command::Active { bank, row: address },
            (1, 0, 1) => Command::Read {
                bank,
                address,
                auto_precharge: a10,
            },
            (1, 0, 0) => Command::Write {
                bank,
                address,
                auto_precharge: a10,
            },
            (1, 1, 0) => Command::BurstTerminate,
            (0, 1, 0) if a10 => Command::Precharge { banks: Named::All },
            (0, 1, 0) => Command::Precharge {
                banks: Named::One(bank),
            },
            (0, 0, 1) => Command::AutoRefresh,
            (0, 0, 0) => Command::ModeRegisterSet {
                register: bank_pins,
                address,
            },
            _ => Command::Nop,
        }
    }

    /// NOP and DESELECT.
    pub fn is_quiet(self) -> bool {
        matches!(self, Command::Nop | Command::Deselect)
    }

    /// The command with CKE low.
    pub fn low(self) -> Asked {
        Asked {
            command: self,
            low: true,
        }
    }

    /// The pin word that asks for this command, with every pin it does not name at 0.
    pub fn pins(self) -> u32 {
        let bank_pins = |bank: usize| (bank as u32) << 14;
        let a10 = |wanted: bool| if wanted { A10 } else { 0 };
        match self {
            Command::Deselect => CS,
            Command::Nop => RAS | CAS | WE,
            Command::Active { bank, row } => CAS | WE | bank_pins(bank) | row,
            Command::Read {
                bank,
                address,
                auto_precharge,
            } => RAS | WE | bank_pins(bank) | address & !A10 | a10(auto_precharge),
            Command::Write {
                bank,
                address,
                auto_precharge,
            } => RAS | bank_pins(bank) | address & !A10 | a10(auto_precharge),
            Command::BurstTerminate => RAS | CAS,
            Command::Precharge {
                banks: Named::One(bank),
            } => CAS | bank_pins(bank),
            Command::Precharge { banks: Named::All } => CAS | A10,
            Command::AutoRefresh => WE,
            Command::ModeRegisterSet { register, address } => register << 14 | address,
        }
    }
}

/// What an event's pins ask for: a command, with CKE high or low.
#[derive(Clone, Copy, Debug, PartialEq, Eq)]
pub struct Asked {
    pub command: Command,
    pub low: bool,
}

impl Asked {
    pub fn of_pins(pins: u32) -> Asked {
        Asked {
            command: Command::of_pins(pins),
            low: pins & LOW != 0,
        }
    }

    pub fn pins(self) -> u32 {
        self.command.pins() | if self.low { LOW } else { 0 }
    }
}

impl From<Command> for Asked {
    /// With CKE high.
    fn from(command: Command) -> Asked {
        Asked {
            command,
            low: false,
        }
    }
}

/// The column that the address pins of a READ or WRITE ask for: A10 is no part of it,
/// A11 is its bit 10, and bits the part lacks are cut off.
pub fn column_of(address: u32, column_bits: u32) -> u32 {
    let column = address & 0x3ff | (address >> 11 & 1) << 10;
    column & ((1 << column_bits) - 1)
}

/// The address pins that ask for a column.
pub fn address_of(column: u32) -> u32 {
    column & 0x3ff | (column >> 10 & 1) << 11
}
