//! Packets: where they may go, and how a message stands in one.
#![forbid(unsafe_code)]

use super::refusals::{CHECKSUM, PACKET_LENGTH, REPLY_DOES_NOT_FIT};

/// The longest packet, and so the least buffer for one.
pub(super) const PACKET_MOST: usize = 4104;
const PACKET_LEAST: usize = 2;

/// What the longest packet leaves beside destination, command, SIZE and checksum.
const PAYLOAD_MOST: usize = PACKET_MOST - 5;

pub(super) fn is_destination(destination: u8) -> bool {
    matches!(destination, 1..=31) || is_multicast(destination)
}

pub(super) fn is_multicast(destination: u8) -> bool {
    matches!(destination, 248..=255)
}

/// The packet, or none if the payload is too long for one.
pub(super) fn sealed(destination: u8, command: u8, payload: &[u8]) -> Option<Vec<u8>> {
    if payload.len() > PAYLOAD_MOST {
        return None;
    }
    let [high, low] = u16::try_from(payload.len()).ok()?.to_be_bytes();
    let mut packet = vec![destination, command, high, low];
    packet.extend_from_slice(payload);
    packet.push(sum(&packet).wrapping_neg());
    Some(packet)
}

/// The command and the payload of a packet to destination 0; refusals 4, 5, 13.
pub(super) fn opened(reply: &[u8]) -> Result<(u8, &[u8]), u8> {
    if !(PACKET_LEAST..=PACKET_MOST).contains(&reply.len()) {
        return Err(PACKET_LENGTH);
    }
    if sum(reply) != 0 {
        return Err(CHECKSUM);
    }
    match reply {
        [0, command, high, low, payload @ .., _]
            if payload.len() == usize::from(u16::from_be_bytes([*high, *low])) =>
        {
            Ok((*command, payload))
        }
        _ => Err(REPLY_DOES_NOT_FIT),
    }
}

fn sum(bytes: &[u8]) -> u8 {
    bytes.iter().copied().fold(0, u8::wrapping_add)
}
