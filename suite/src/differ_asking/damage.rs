//! Replies that were damaged on their way.
use crate::random::Random;
use cruachvel::MOST_PACKET;

/// A reply that isn't any more what it was: a byte is another one, some are missing or too many; SIZE and checksum may be mended.
pub(super) fn damaged(random: &mut Random, reply: &[u8]) -> Vec<u8> {
    let mut damaged = reply.to_vec();
    match random.below(8) {
        0..=2 => {
            let place = random.below(reply.len());
            damaged[place] = other_byte(random, damaged[place]);
        }
        3 => damaged.truncate(random.below(reply.len())),
        4 => damaged.extend(some_bytes(random)),
        5 => drop(damaged.remove(random.below(reply.len()))),
        6 => damaged.insert(random.below(reply.len()), random.byte()),
        _ => {
            let length = random.within(MOST_PACKET - 1, MOST_PACKET + 2);
            damaged.resize(length, 0);
        }
    }
    if random.once_in(2) {
        mend_size(&mut damaged);
    }
    if !random.once_in(4) {
        mend(&mut damaged);
    }
    damaged
}

fn some_bytes(random: &mut Random) -> Vec<u8> {
    let length = random.choose(&[1, 1, 2, 5, 16]);
    random.bytes(length)
}

// The next, the one before, one bit apart, or any other.
fn other_byte(random: &mut Random, byte: u8) -> u8 {
    let bit = byte ^ 1 << random.below(8);
    let any = byte.wrapping_add(random.within(1, 255) as u8);
    random.choose(&[byte.wrapping_add(1), byte.wrapping_sub(1), bit, any])
}

/// Every reply with one byte changed, and every beginning of the reply, each with its old checksum and with a right one.
pub(super) fn each(random: &mut Random, reply: &[u8]) -> Vec<Vec<u8>> {
    let mut all = Vec::new();
    for place in 0..reply.len() {
        let mut changed = reply.to_vec();
        changed[place] = other_byte(random, changed[place]);
        all.push(changed.clone());
        mend(&mut changed);
        all.push(changed);
        let mut cut = reply[..place].to_vec();
        all.push(cut.clone());
        mend(&mut cut);
        all.push(cut.clone());
        mend_size(&mut cut);
        mend(&mut cut);
        all.push(cut);
    }
    all
}

/// The last byte becomes the one that makes the sum 0.
pub(super) fn mend(packet: &mut [u8]) {
    if let Some((last, rest)) = packet.split_last_mut() {
        *last = rest.iter().fold(0, |sum: u8, byte| sum.wrapping_sub(*byte));
    }
}

/// SIZE becomes the number of bytes between it and the last.
pub(super) fn mend_size(packet: &mut [u8]) {
    if let Some(payload) = packet.len().checked_sub(5) {
        packet[2..4].copy_from_slice(&(payload as u16).to_be_bytes());
    }
}
