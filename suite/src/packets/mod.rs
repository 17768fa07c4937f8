//! Packets aimed at every command, with none, one or two of 01's wire errors in them.
mod drawer;
mod payloads;
mod spoilt;
mod things;
mod wrong;

pub use drawer::{Draft, Drawer};
pub use wrong::Wrong;

/// The request codes of 01's table, with 0A and 42 of 02 (2026-02).
pub const COMMANDS: [u8; 20] = [
    0x00, 0x02, 0x04, 0x06, 0x08, 0x0A, 0x0C, 0x10, 0x12, 0x20, 0x22, 0x24, 0x26, 0x28, 0x30, 0x32,
    0x40, 0x41, 0x42, 0x50,
];

/// The operations of 24 and 26.
pub const OPERATIONS: [u8; 6] = [0x53, 0x4F, 0x43, 0x54, 0x58, 0x41];

/// The packet with this destination and message, and the checksum that makes its sum 0.
pub fn packet(destination: u8, message: &[u8]) -> Vec<u8> {
    let sum = message
        .iter()
        .fold(destination, |sum, byte| sum.wrapping_add(*byte));
    let mut packet = Vec::with_capacity(message.len() + 2);
    packet.push(destination);
    packet.extend_from_slice(message);
    packet.push(sum.wrapping_neg());
    packet
}

/// The message of a command with its SIZE.
pub fn message(command: u8, payload: &[u8]) -> Vec<u8> {
    let size = (payload.len() as u16).to_be_bytes();
    [&[command], &size[..], payload].concat()
}
