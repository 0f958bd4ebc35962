//! The calls of the unit, its answers, and the refusals by number.

use crate::numbers::WORD_BYTES;

/// "1 if the words are no multiple of 512 or the frames are 0 or more than 65,536"
pub const BAD_MEMORY: u32 = 1;
/// "2 if H or S is below 4 or H + S leaves no guest frame"
pub const BAD_SPLIT: u32 = 2;
/// "3 for any kind but 1 before a granted open"
pub const NOT_OPEN: u32 = 3;
/// For loads and stores 4 if the address is not legal ("when bits 48 to 63 all
/// equal bit 47") or no multiple of the width, for marks the first only; for device
/// stores 4 if the address is 2^48 or more, or no multiple of the width.
pub const BAD_ADDRESS: u32 = 4;
/// "5 if the level is not 1 to 5"
pub const BAD_LEVEL: u32 = 5;
/// "6 if set already"; for a clear "6 if not set". An automatic mark is no mark of the
/// operator's: to them it is not set.
pub const MARK_AS_IS: u32 = 6;
/// "7 if 64 are set", all by the operator.
pub const MARKS_FULL: u32 = 7;
/// "8 if the number is 2^36 or more"
pub const BAD_GUEST_FRAME: u32 = 8;
/// "9 if the host frame is outside the guest area"
pub const BAD_HOST_FRAME: u32 = 9;
/// "10 exactly if the host tables [...] would exceed H"
pub const HOST_TABLES_FULL: u32 = 10;
/// "12 if not mapped"
pub const NOT_MAPPED: u32 = 12;
/// "13 and the end, if the length is not its kind's, the kind is unknown or the input is cut"
pub const BAD_RECORD: u32 = 13;
/// A forecast of more addresses than it takes; 3 and 16 go before it.
pub const TOO_MANY_ADDRESSES: u32 = 14;
/// A load or store of another width than 1, 2, 4 or 8; only 3 goes before it.
pub const BAD_WIDTH: u32 = 15;

/// A forecast of a unit that has accessed and dirty bits; only 3 goes before it.
pub const NO_FORECAST: u32 = 16;

/// What an opening chooses beside its sizes. Jobs have none of it.
#[derive(Clone, Copy, Debug, Default, PartialEq, Eq)]
pub struct Choices {
    /// Accessed and dirty bits (document 02, 6).
    pub bits: bool,
    /// The automatic choice: marks that the unit sets itself, on tables of level 1 that
    /// are written often (document 02, 7).
    pub automatic: bool,
}

/// A call after a granted opening.
#[derive(Clone, Debug, PartialEq, Eq)]
pub enum Call {
    Root { frame: u64 },
    Map { guest: u64, host: u64, writable: bool },
    Unmap { guest: u64 },
    SetMark { address: u64, level: u64 },
    ClearMark { address: u64, level: u64 },
    Load { address: u64, width: u64 },
    Store { address: u64, width: u64, value: u64 },
    DeviceStore { address: u64, width: u64, value: u64 },
    Forecast { addresses: Vec<u64> },
}

/// Loads and stores of whole words: a job's records have no others, and a forecast
/// speaks of no others.
impl Call {
    pub fn load_word(address: u64) -> Call {
        Call::Load { address, width: WORD_BYTES }
    }

    pub fn store_word(address: u64, value: u64) -> Call {
        Call::Store { address, width: WORD_BYTES, value }
    }

    pub fn device_store_word(address: u64, value: u64) -> Call {
        Call::DeviceStore { address, width: WORD_BYTES, value }
    }
}

/// A fault with what it carries.
#[derive(Clone, Copy, Debug, PartialEq, Eq)]
pub enum Fault {
    /// A: a guest entry is not present.
    Absent { level: u32 },
    /// M: a present guest entry is malformed.
    Malformed { level: u32 },
    /// P: a store, and "any unset writable bit among the four guest entries".
    Protected { level: u32 },
    /// H: a host entry is not present.
    HostAbsent { frame: u64 },
    /// W: a store to a page whose host entry forbids it; or a bit that a
    /// request needs is not set, in a table whose frame is mapped read-only.
    HostReadOnly { frame: u64 },
}

impl Fault {
    pub fn letter(self) -> char {
        match self {
            Fault::Absent { .. } => 'A',
            Fault::Malformed { .. } => 'M',
            Fault::Protected { .. } => 'P',
            Fault::HostAbsent { .. } => 'H',
            Fault::HostReadOnly { .. } => 'W',
        }
    }

    /// "L its level or 0"
    pub fn level(self) -> u32 {
        match self {
            Fault::Absent { level } | Fault::Malformed { level } | Fault::Protected { level } => level,
            Fault::HostAbsent { .. } | Fault::HostReadOnly { .. } => 0,
        }
    }

    /// "G the guest frame or 0"
    pub fn frame(self) -> u64 {
        match self {
            Fault::Absent { .. } | Fault::Malformed { .. } | Fault::Protected { .. } => 0,
            Fault::HostAbsent { frame } | Fault::HostReadOnly { frame } => frame,
        }
    }

    /// H or W: the two faults of the host's side.
    pub fn is_of_host(self) -> bool {
        matches!(self, Fault::HostAbsent { .. } | Fault::HostReadOnly { .. })
    }
}

/// Figures are a forecast's: sums, and the greatest number of shadow tables in use.
#[derive(Clone, Copy, Debug, PartialEq, Eq)]
pub enum Answer {
    Ok,
    Value { value: u64, references: u64, exits: u64 },
    Done { references: u64, exits: u64 },
    Fault { fault: Fault, references: u64, exits: u64 },
    Figures { references: u64, exits: u64, tables: u64 },
    No(u32),
}

impl Answer {
    /// References and exits. What is refused has none.
    pub fn counts(self) -> (u64, u64) {
        match self {
            Answer::Value { references, exits, .. }
            | Answer::Done { references, exits }
            | Answer::Fault { references, exits, .. }
            | Answer::Figures { references, exits, .. } => (references, exits),
            Answer::Ok | Answer::No(_) => (0, 0),
        }
    }
}
