//! Messages that are no good as a whole: their front, their command, their SIZE.
use super::{Drawer, COMMANDS};

impl Drawer<'_> {
    // A payload that is not of the fixed size, or shorter than its front; for 30 none, or more IDs than variables.
    pub(super) fn spoil_front(&mut self, command: u8, payload: &mut Vec<u8>) {
        let (least, fixed) = match command {
            0x00 | 0x02 | 0x04 | 0x08 | 0x0C | 0x32 => (0, true),
            0x06 | 0x0A | 0x10 | 0x12 | 0x42 => (1, true),
            0x40 => (3, true),
            0x24 | 0x26 | 0x28 => (2, false),
            0x41 => (3, false),
            _ => (1, false),
        };
        let longer = self.random.within(1, 9);
        if command == 0x30 && self.random.once_in(2) {
            payload.resize(self.lent.variables.len() + longer, 0);
        } else if fixed && (least == 0 || self.random.once_in(2)) {
            let length = least + longer;
            payload.resize(length, 0);
        } else {
            payload.truncate(self.random.below(least));
        }
    }

    pub(super) fn unknown_command(&mut self) -> u8 {
        let near = self
            .random
            .choose(&[0x01, 0x0B, 0x43, 0x51, 0x53, 0xE0, 0x7F]);
        let any = self.random.byte();
        let code = self.random.choose(&[near, any]);
        if COMMANDS.contains(&code) {
            return near;
        }
        code
    }

    // A SIZE that is not the number of bytes that follow, or a message without one.
    pub(super) fn spoil_size(&mut self, message: &mut Vec<u8>) {
        if self.random.once_in(4) {
            message.truncate(self.random.below(3));
            return;
        }
        let right = u16::from_be_bytes([message[1], message[2]]);
        let wrong = self.random.choose(&[
            right.wrapping_add(1),
            right.wrapping_sub(1),
            right.wrapping_add(256),
            right.swap_bytes(),
            0xFFFF,
        ]);
        let wrong = if wrong == right { right ^ 2 } else { wrong };
        message[1..3].copy_from_slice(&wrong.to_be_bytes());
    }
}
