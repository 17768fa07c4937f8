//! 01's wire errors.

/// What can be wrong with a message, in the order in which 01 tests it.
#[derive(Clone, Copy, Debug, PartialEq, Eq, PartialOrd, Ord)]
pub enum Wrong {
    Size,
    Command,
    Front,
    Number,
    Operation,
    Value,
    Length,
    ReadOnly,
    Busy,
    Full,
}

impl Wrong {
    pub const ALL: [Wrong; 10] = [
        Wrong::Size,
        Wrong::Command,
        Wrong::Front,
        Wrong::Number,
        Wrong::Operation,
        Wrong::Value,
        Wrong::Length,
        Wrong::ReadOnly,
        Wrong::Busy,
        Wrong::Full,
    ];

    /// The wire error that it gets.
    pub fn error(self) -> u8 {
        [0xE1, 0xE2, 0xE5, 0xE3, 0xE2, 0xE4, 0xE5, 0xE6, 0xE8, 0xE7][self as usize]
    }

    /// Whether a message of this command can be wrong in this way.
    pub fn concerns(self, command: u8) -> bool {
        match self {
            Wrong::Size | Wrong::Command | Wrong::Front => true,
            Wrong::Number => !matches!(command, 0x00 | 0x02 | 0x04 | 0x08 | 0x0C | 0x32),
            Wrong::Operation => matches!(command, 0x24 | 0x26),
            Wrong::Value => matches!(command, 0x30 | 0x40 | 0x41),
            Wrong::Length => matches!(command, 0x20..=0x28 | 0x41 | 0x50),
            Wrong::ReadOnly => matches!(command, 0x20..=0x28 | 0x41),
            Wrong::Busy => matches!(command, 0x10 | 0x12 | 0x20..=0x28),
            Wrong::Full => command == 0x30,
        }
    }
}
