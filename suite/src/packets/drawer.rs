//! How packets are drawn for a board.
use super::{message, packet, Wrong, COMMANDS};
use crate::lent::Lent;
use crate::random::Random;
use cruachvel::{Groups, MOST_PACKET};

/// A message, the busy marks that go with it, and what was meant by it.
#[derive(Clone, Debug)]
pub struct Draft {
    pub command: u8,
    pub wrongs: Vec<Wrong>,
    pub message: Vec<u8>,
    pub busy: u64,
}

/// Draws messages for a board whose groups are as given.
pub struct Drawer<'a> {
    pub random: &'a mut Random,
    pub lent: &'a Lent,
    pub groups: &'a Groups,
}

impl Drawer<'_> {
    /// A message of this command that is wrong in these ways, and right otherwise, as far as the board has what it takes.
    pub fn draft(&mut self, command: u8, wrongs: &[Wrong]) -> Draft {
        let (mut payload, touched) = self.payload(command, wrongs);
        if wrongs.contains(&Wrong::Front) {
            self.spoil_front(command, &mut payload);
        }
        let code = if wrongs.contains(&Wrong::Command) {
            self.unknown_command()
        } else {
            command
        };
        let mut message = message(code, &payload);
        if wrongs.contains(&Wrong::Size) {
            self.spoil_size(&mut message);
        }
        Draft {
            command,
            wrongs: wrongs.to_vec(),
            message,
            busy: self.busy(touched, wrongs),
        }
    }

    /// A message of any command, wrong in at most two ways.
    pub fn any(&mut self) -> Draft {
        let command = match self.random.below(24) {
            0..=3 => 0x30,
            // So that blocks and sums are read between block writes and renewals.
            4..=6 => self.random.choose(&[0x0A, 0x40, 0x41, 0x41, 0x42]),
            _ => self.random.choose(&COMMANDS),
        };
        let possible: Vec<Wrong> = Wrong::ALL
            .into_iter()
            .filter(|wrong| wrong.concerns(command))
            .collect();
        let count = self.random.choose(&[0, 0, 0, 0, 1, 1, 1, 2, 2, 2]);
        let mut wrongs: Vec<Wrong> = (0..count).map(|_| self.random.choose(&possible)).collect();
        // So that reads, which can be wrong in few other ways, meet busy marks often.
        if count < 2 && Wrong::Busy.concerns(command) && self.random.once_in(3) {
            wrongs.push(Wrong::Busy);
        }
        wrongs.sort();
        wrongs.dedup();
        self.draft(command, &wrongs)
    }

    /// A whole packet: mostly for this board and with the right checksum.
    pub fn packet(&mut self) -> (Vec<u8>, Draft) {
        let draft = self.any();
        let destination = self.destination();
        let mut packet = packet(destination, &draft.message);
        if self.random.once_in(50) {
            let place = self.random.below(packet.len());
            packet[place] ^= 1 << self.random.below(8);
        }
        (packet, draft)
    }

    /// Random bytes, of lengths around 01's limits too; half of them with the right sum.
    pub fn noise(&mut self) -> Vec<u8> {
        let length = match self.random.below(6) {
            0 => self.random.below(4),
            1 => self.random.within(MOST_PACKET - 1, MOST_PACKET + 2),
            2 => self.random.below(MOST_PACKET),
            _ => self.random.below(24),
        };
        let mut bytes = self.random.bytes(length);
        if let (Some(first), true) = (bytes.first_mut(), self.random.once_in(2)) {
            *first = self.lent.address.own;
        }
        if let (Some((last, rest)), true) = (bytes.split_last_mut(), self.random.once_in(2)) {
            *last = rest.iter().fold(0u8, |sum, byte| sum.wrapping_sub(*byte));
        }
        bytes
    }

    fn destination(&mut self) -> u8 {
        match self.random.below(16) {
            0 => self.random.byte(),
            1 => self.random.choose(&[0, 32, 247, 255]),
            2 | 3 => self.random.within(248, 255) as u8,
            _ => self.lent.address.own,
        }
    }
}
