//! A BSMP 2.20 node for small boards, and the side that asks it: the safe Rust face of a library whose meaning is proved.
//!
//! One packet and a board's state give one [`Outcome`] and the next state. [`Node`] owns a board and is the easy way;
//! the nine entries ([`packet`], [`function_result`], [`board_store`], [`fresh_board`], [`read_signed`],
//! [`read_unsigned`], [`write_signed`], [`write_unsigned`], [`md5`]) work on lent slices and allocate nothing. Every input
//! is taken: what doesn't fit ends in a [`Refusal`] that changes nothing.
//!
//! The other side is [`Gateway`]: it writes requests from their meaning, reads the replies and learns a node from its lists.
//!
//! ```
//! use cruachvel::{packet, Address, Groups, Kind, Outcome, Table, Variable, REPLY_ROOM};
//!
//! let variables = [Variable::writable(1, Kind::Plain)];
//! let table = Table::new(&variables, &[], &[]);
//! let address = Address { own: 5, multicast: 0x81 };
//! let (mut groups, mut values, mut reply) = (Groups::NONE, [0x5A], [0; REPLY_ROOM]);
//! let invert = [0x05, 0x24, 0x00, 0x03, 0x00, 0x54, 0x0F, 0x71]; // invert the low four bits of variable 0
//! let (blocks, lengths, sums) = (&mut [], &mut [], &mut []); // this board has no curves
//! let outcome = packet(
//!     &table, &mut groups, address, 0, &mut values, blocks, lengths, sums, &invert, &mut reply,
//! );
//! assert_eq!(outcome, Outcome::Reply(&[0x00, 0xE0, 0x00, 0x00, 0x20]));
//! assert_eq!(values, [0x55]);
//! ```
//!
//! Words and numbers are those of the project's document 01, names those of the C header. The proved library is for
//! x86-64; over the portable edition (`docs/BOARDS.md`), whose archive RATTLE_LIB names then, this crate works on other
//! machines of 64 bits too.
#![warn(missing_docs)]

mod board;
mod entries;
mod gateway;
mod learned;
mod node;
mod outcome;
pub mod raw;
pub mod wire;

pub use board::{
    Address, Board, Curve, CurveNumber, Function, FunctionNumber, GroupNumber, Groups, Kind, Table,
    Variable, VariableNumber, MOST_BLOCKS, MOST_CURVES, MOST_CURVE_BYTES, MOST_PACKET,
    MOST_VALUE_BYTES, MOST_VARIABLES, REPLY_ROOM, REQUEST_ROOM, SUM_SIZE,
};
pub use entries::{
    board_store, fresh_board, function_result, md5, packet, read_signed, read_unsigned,
    write_signed, write_unsigned,
};
pub use gateway::{
    Answer, Gateway, ListedGroup, ListedVariable, Lists, Masking, Number, Record, Records, Request,
    Values,
};
pub use learned::Learned;
pub use node::{Node, State};
pub use outcome::{Outcome, Ran, Refusal};
pub use wire::WireError;

/// The archive that this build is linked with.
pub const ARCHIVE: &str = env!("CRUACHVEL_ARCHIVE");
