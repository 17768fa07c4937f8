//! The requests and replies whose cost is measured, on the proved asking side and on the second one.
use crate::boards::board_a;
use crate::differ_asking::asked::Asked;
use crate::differ_asking::second_side;
use crate::differ_asking::tables::{of_board, Table};
use crate::lent::Lent;
use crate::measured::full_board;
use crate::packets::{message, packet};
use crate::second_asking::Heard;
use cruachvel::{raw, MOST_PACKET};

/// A request that is written, or a reply to it that is read with a table.
pub struct Measured {
    pub name: &'static str,
    asked: Asked,
    table: Table,
    reply: Option<Vec<u8>>,
}

/// All of them.
pub fn all() -> Vec<Measured> {
    let (a, full) = (board_a(), full_board());
    let ascending: Vec<u8> = (0..64).collect();
    let mixed: Vec<u8> = (0..64_u32).map(|place| (37 * place % 64) as u8).collect();
    let descending: Vec<u8> = (0..64).rev().collect();
    let most: Vec<u8> = (0..4099).map(|place| 255 - (place / 17) as u8).collect();
    let block = [&[0, 0, 1], &[0x66; 4096][..]].concat();
    vec![
        written("request: read of a variable", &a, 0x10, &[1]),
        written("request: group of 64, ascending", &full, 0x30, &ascending),
        written("request: group of 64, mixed", &full, 0x30, &mixed),
        written("request: group of 64, descending", &full, 0x30, &descending),
        written("request: 4,099 IDs, descending", &full, 0x30, &most),
        written("request: write of a block of 4,096", &full, 0x41, &block),
        heard("reply: a variable, board A", &a, 0x10, &[1]),
        heard("reply: variable 63", &full, 0x10, &[63]),
        heard("reply: a group of 64", &full, 0x12, &[0]),
        heard("reply: a block of 4,096 bytes", &full, 0x40, &[0, 0, 1]),
        heard("reply: list of 64 variables, learned", &full, 0x02, &[]),
        heard("reply: done, board A", &a, 0x20, &[1, 0x66]),
    ]
}

fn written(name: &'static str, lent: &Lent, command: u8, payload: &[u8]) -> Measured {
    Measured {
        name,
        asked: Asked::of(lent.address.own, &message(command, payload)),
        table: Table::of(of_board(lent, &lent.groups)),
        reply: None,
    }
}

// The reply is the proved node's.
fn heard(name: &'static str, lent: &Lent, command: u8, payload: &[u8]) -> Measured {
    let answer = lent.clone().ask(&message(command, payload));
    Measured {
        reply: Some(packet(0, &answer)),
        ..written(name, lent, command, payload)
    }
}

/// A side that does the same again and again.
pub trait Side {
    /// One call: how many bytes or records it told.
    fn call(&mut self) -> usize;

    /// So many calls; the sum of what they told, so that none can be left out.
    fn calls(&mut self, times: usize) -> usize {
        (0..times).map(|_| self.call()).sum()
    }
}

/// The proved side.
pub struct Proved<'a> {
    measured: &'a Measured,
    table: cruachvel::Learned,
    packet: Vec<u8>,
}

impl<'a> Proved<'a> {
    pub fn new(measured: &'a Measured) -> Proved<'a> {
        Proved {
            measured,
            table: measured.table.raw,
            packet: vec![0; MOST_PACKET],
        }
    }

    fn write(&mut self) -> usize {
        let asked = &self.measured.asked;
        // SAFETY: each slice is lent with its length, and none overlaps another.
        let told = unsafe {
            raw::bsmp_ask_packet(
                asked.destination,
                asked.code,
                asked.operation,
                asked.number,
                asked.other,
                asked.block,
                asked.bytes.as_ptr(),
                asked.bytes.len(),
                self.packet.as_mut_ptr(),
                self.packet.len(),
            )
        };
        told.length
    }

    fn hear(&mut self, reply: &[u8]) -> usize {
        let asked = &self.measured.asked;
        // SAFETY: as above.
        let told = unsafe {
            raw::bsmp_hear_reply(
                &mut self.table,
                asked.destination,
                asked.code,
                asked.operation,
                asked.number,
                asked.other,
                asked.block,
                asked.bytes.as_ptr(),
                asked.bytes.len(),
                reply.as_ptr(),
                reply.len(),
            )
        };
        told.length
    }
}

impl Side for Proved<'_> {
    fn call(&mut self) -> usize {
        match &self.measured.reply {
            None => self.write(),
            Some(reply) => self.hear(reply),
        }
    }
}

/// The second side. It makes what it tells anew each time, and that is part of its cost.
pub struct Second<'a> {
    measured: &'a Measured,
    table: crate::second_asking::Learned,
}

impl<'a> Second<'a> {
    pub fn new(measured: &'a Measured) -> Second<'a> {
        Second {
            measured,
            table: measured.table.known.clone(),
        }
    }
}

impl Side for Second<'_> {
    fn call(&mut self) -> usize {
        match &self.measured.reply {
            None => second_writes(&self.measured.asked),
            Some(reply) => second_hears(&mut self.table, &self.measured.asked, reply),
        }
    }
}

// A function of its own, so that instructions can be counted within it.
#[inline(never)]
fn second_writes(asked: &Asked) -> usize {
    second_side::ask(asked, MOST_PACKET).map_or(0, |packet| packet.len())
}

#[inline(never)]
fn second_hears(known: &mut crate::second_asking::Learned, asked: &Asked, reply: &[u8]) -> usize {
    match second_side::hear(known, asked, reply) {
        Ok(Heard::Variables(list)) => list.len(),
        Ok(Heard::Values(values)) => values.iter().map(|(_, bytes)| bytes.len()).sum(),
        Ok(Heard::Block(bytes)) => bytes.len(),
        _ => 0,
    }
}
