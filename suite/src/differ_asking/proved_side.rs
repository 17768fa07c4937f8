//! The proved asking side: the archive's functions, over memory between guard pages.
use super::asked::Asked;
use crate::guard::{Edge, Guarded};
use cruachvel::raw::{self, ToldAsked, ToldHeard, ToldPlace, ToldSigned, ToldUnsigned};
use cruachvel::{Learned, MOST_PACKET};

/// The most bytes that are ever lent to go with a request, and the longest reply.
const MOST_BYTES: usize = 65_536 + 4096;

/// All that is lent to a call.
pub(super) struct Proved {
    pub(super) edge: Edge,
    pub(super) table: Guarded<Learned>,
    /// What goes with a request, or the bytes that are taken as a number.
    pub(super) bytes: Guarded<u8>,
    pub(super) kinds: Guarded<u8>,
    pub(super) reply: Guarded<u8>,
    /// For a request's packet, or for the bytes of a number.
    pub(super) buffer: Guarded<u8>,
}

impl Proved {
    pub(super) fn new() -> Proved {
        Proved {
            edge: Edge::End,
            table: Guarded::new(1),
            bytes: Guarded::new(MOST_BYTES),
            kinds: Guarded::new(4096),
            reply: Guarded::new(MOST_BYTES),
            buffer: Guarded::new(2 * MOST_PACKET),
        }
    }

    /// The packet of a request goes into the buffer.
    pub(super) fn ask(&mut self, asked: &Asked) -> ToldAsked {
        self.bytes.put(self.edge, &asked.bytes);
        // SAFETY: each slice is lent with its length, and none overlaps another.
        unsafe {
            raw::bsmp_ask_packet(
                asked.destination,
                asked.code,
                asked.operation,
                asked.number,
                asked.other,
                asked.block,
                self.bytes.as_ptr(),
                self.bytes.len(),
                self.buffer.as_mut_ptr(),
                self.buffer.len(),
            )
        }
    }

    /// The table is then as the reply leaves it.
    pub(super) fn hear(&mut self, table: &Learned, asked: &Asked, reply: &[u8]) -> ToldHeard {
        self.table.put(self.edge, &[*table]);
        self.bytes.put(self.edge, &asked.bytes);
        self.reply.put(self.edge, reply);
        // SAFETY: as above.
        unsafe {
            raw::bsmp_hear_reply(
                self.table.as_mut_ptr(),
                asked.destination,
                asked.code,
                asked.operation,
                asked.number,
                asked.other,
                asked.block,
                self.bytes.as_ptr(),
                self.bytes.len(),
                self.reply.as_ptr(),
                self.reply.len(),
            )
        }
    }

    pub(super) fn place(&mut self, table: &Learned, group: usize, variable: usize) -> ToldPlace {
        self.table.put(self.edge, &[*table]);
        // SAFETY: as above.
        unsafe { raw::bsmp_hear_place(self.table.as_ptr(), group, variable) }
    }

    /// The table and the kinds by which numbers are read and written.
    pub(super) fn lend(&mut self, table: &Learned, kinds: &[u8]) {
        self.table.put(self.edge, &[*table]);
        self.kinds.put(self.edge, kinds);
    }

    pub(super) fn signed(&mut self, variable: usize, bytes: &[u8]) -> ToldSigned {
        self.bytes.put(self.edge, bytes);
        // SAFETY: as above.
        unsafe {
            raw::bsmp_hear_signed(
                self.table.as_ptr(),
                self.kinds.as_ptr(),
                self.kinds.len(),
                variable,
                self.bytes.as_ptr(),
                self.bytes.len(),
            )
        }
    }

    pub(super) fn unsigned(&mut self, variable: usize, bytes: &[u8]) -> ToldUnsigned {
        self.bytes.put(self.edge, bytes);
        // SAFETY: as above.
        unsafe {
            raw::bsmp_hear_unsigned(
                self.table.as_ptr(),
                self.kinds.as_ptr(),
                self.kinds.len(),
                variable,
                self.bytes.as_ptr(),
                self.bytes.len(),
            )
        }
    }

    /// The bytes of a number go into the buffer.
    pub(super) fn write_signed(&mut self, variable: usize, number: i64) -> u8 {
        // SAFETY: as above.
        unsafe {
            raw::bsmp_ask_signed(
                self.table.as_ptr(),
                self.kinds.as_ptr(),
                self.kinds.len(),
                variable,
                number,
                self.buffer.as_mut_ptr(),
                self.buffer.len(),
            )
        }
    }

    pub(super) fn write_unsigned(&mut self, variable: usize, number: u64) -> u8 {
        // SAFETY: as above.
        unsafe {
            raw::bsmp_ask_unsigned(
                self.table.as_ptr(),
                self.kinds.as_ptr(),
                self.kinds.len(),
                variable,
                number,
                self.buffer.as_mut_ptr(),
                self.buffer.len(),
            )
        }
    }
}
