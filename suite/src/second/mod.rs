//! A BSMP node: one packet and a board's state give one outcome and the next state.

mod board;
mod codes;
mod md5;
mod message;
mod node;
mod numbers;
mod reply;

pub use board::{Address, Groups, Table, Variable};
pub use md5::md5;
pub use node::{board_store, fresh_board, function_result, packet, Outcome, Ran};
pub use numbers::{read_signed, read_unsigned, write_signed, write_unsigned};
