//! The asking side of 2026-04 a second time: writes requests, reads replies, and learns a node from its lists.
//!
//! It shares nothing with the proved library or with the second node, so that a mistake in one of them isn't repeated here.
#![forbid(unsafe_code)]

mod learn;
mod lists;
mod numbers;
mod packet;
mod refusals;
mod reply;
mod request;
mod table;

pub use learn::learn;
pub use numbers::{signed, unsigned, write_signed, write_unsigned};
pub use reply::{hear, Heard};
pub use request::{ask, Masking, Request};
pub use table::Learned;
