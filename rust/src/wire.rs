//! Wire codes: what stands at place 1 of a reply in which there is nothing to read; the errors among them as a type.
//!
//! ```
//! use cruachvel::{wire, Address, Board, Kind, Node, Outcome, Variable, REPLY_ROOM};
//!
//! let mut node = Node::new(Board {
//!     variables: vec![Variable::read_only(1, Kind::Plain)],
//!     curves: vec![],
//!     functions: vec![],
//!     address: Address { own: 5, multicast: 0x01 },
//! });
//! let mut reply = [0; REPLY_ROOM];
//! match node.packet(&[0x05, 0x20, 0x00, 0x02, 0x00, 0x66, 0x73], &mut reply) {
//!     Outcome::Reply(reply) => assert_eq!(reply[1], wire::READ_ONLY),
//!     other => panic!("no reply: {:?}", other),
//! }
//! ```

use std::fmt;

/// Carried out.
pub const OK: u8 = 0xE0;
/// The message is under 3 bytes, or SIZE is not the number of bytes that follow.
pub const MALFORMED: u8 = 0xE1;
/// There is no such command, or no such operation.
pub const UNSUPPORTED: u8 = 0xE2;
/// There is no such variable, group, curve or function.
pub const BAD_ID: u8 = 0xE3;
/// There is no such block, or the IDs of a new group are not strictly ascending.
pub const BAD_VALUE: u8 = 0xE4;
/// The payload is of a wrong size.
pub const BAD_SIZE: u8 = 0xE5;
/// The thing to be written is read-only.
pub const READ_ONLY: u8 = 0xE6;
/// Five groups are made already.
pub const FULL: u8 = 0xE7;
/// A variable to be read or written is busy.
pub const BUSY: u8 = 0xE8;

/// An error that a node answers, E1 to E8.
#[derive(Clone, Copy, Debug, PartialEq, Eq, Hash)]
#[repr(u8)]
pub enum WireError {
    /// The message is under 3 bytes, or SIZE is not the number of bytes that follow.
    Malformed = MALFORMED,
    /// There is no such command, or no such operation.
    Unsupported = UNSUPPORTED,
    /// There is no such variable, group, curve or function.
    BadId = BAD_ID,
    /// There is no such block, or the IDs of a new group are not strictly ascending.
    BadValue = BAD_VALUE,
    /// The payload is of a wrong size.
    BadSize = BAD_SIZE,
    /// The thing to be written is read-only.
    ReadOnly = READ_ONLY,
    /// Five groups are made already.
    Full = FULL,
    /// A variable to be read or written is busy.
    Busy = BUSY,
}

impl WireError {
    /// All errors, in the order of their codes.
    pub const ALL: [WireError; 8] = [
        WireError::Malformed,
        WireError::Unsupported,
        WireError::BadId,
        WireError::BadValue,
        WireError::BadSize,
        WireError::ReadOnly,
        WireError::Full,
        WireError::Busy,
    ];

    /// The code on the wire.
    pub const fn code(self) -> u8 {
        self as u8
    }

    /// The error that has this code.
    pub fn of(code: u8) -> Option<WireError> {
        let place = usize::from(code).checked_sub(usize::from(MALFORMED))?;
        WireError::ALL.get(place).copied()
    }

    /// What 01 gives it for, in its words where they are few.
    pub const fn words(self) -> &'static str {
        match self {
            WireError::Malformed => {
                "message under 3 bytes, or SIZE not the number of bytes that follow"
            }
            WireError::Unsupported => "no such command, or no such operation",
            WireError::BadId => "a variable, group, curve or function is named that doesn't exist",
            WireError::BadValue => {
                "block number not below the count, or IDs of a new group not strictly ascending"
            }
            WireError::BadSize => "payload not of the declared size",
            WireError::ReadOnly => "the thing to be written is read-only",
            WireError::Full => "five groups made already",
            WireError::Busy => "a variable to be read or written is busy",
        }
    }
}

impl fmt::Display for WireError {
    fn fmt(&self, f: &mut fmt::Formatter) -> fmt::Result {
        f.write_str(self.words())
    }
}

impl std::error::Error for WireError {}
