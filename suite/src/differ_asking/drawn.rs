//! How requests are drawn for a board.
use super::asked::{front, Asked};
use crate::lent::Lent;
use crate::packets::{Drawer, Wrong, COMMANDS};
use crate::random::Random;
use cruachvel::{Groups, MOST_PACKET};

/// The longest payload that a packet has room for.
const MOST_PAYLOAD: usize = MOST_PACKET - 5;

/// A request, the room that is lent for its packet, and the busy marks of the board that it is sent to.
#[derive(Clone, Debug)]
pub(super) struct Drawn {
    pub(super) asked: Asked,
    pub(super) room: usize,
    pub(super) busy: u64,
}

impl Drawn {
    /// This request, with all the room that it takes and nothing busy.
    pub(super) fn plain(asked: Asked) -> Drawn {
        Drawn {
            asked,
            room: MOST_PACKET,
            busy: 0,
        }
    }
}

/// A request for a board whose groups are as given: mostly one that the board carries out, often one that it answers with an error, and now
/// and then one that can't be written.
pub(super) fn draw(random: &mut Random, lent: &Lent, groups: &Groups) -> Drawn {
    let command = match random.below(12) {
        0 => 0x30,
        1 => random.choose(&[0x0A, 0x40, 0x41, 0x42]),
        _ => random.choose(&COMMANDS),
    };
    let wrongs = wrongs(random, command);
    let mut drawer = Drawer {
        random,
        lent,
        groups,
    };
    let draft = drawer.draft(command, &wrongs);
    let mut asked = Asked::of(lent.address.own, &draft.message);
    if command == 0x30 && random.once_in(2) {
        shuffle(random, &mut asked.bytes);
    }
    idle(random, &mut asked);
    if random.once_in(8) {
        twist(random, &mut asked);
    }
    asked.destination = destination(random, lent.address.own);
    Drawn {
        asked,
        room: room(random),
        busy: draft.busy,
    }
}

// What a request can ask for: its SIZE and command are always right, and only 30 can have too few bytes or too many.
fn wrongs(random: &mut Random, command: u8) -> Vec<Wrong> {
    let possible = |wrong: &Wrong| {
        wrong.concerns(command)
            && !matches!(wrong, Wrong::Size | Wrong::Command | Wrong::Operation)
            && (*wrong != Wrong::Front || command == 0x30)
    };
    let possible: Vec<Wrong> = Wrong::ALL.into_iter().filter(possible).collect();
    let count = random.choose(&[0, 0, 0, 0, 0, 1, 1, 1, 2]);
    if possible.is_empty() {
        return possible;
    }
    let mut wrongs: Vec<Wrong> = (0..count).map(|_| random.choose(&possible)).collect();
    wrongs.sort();
    wrongs.dedup();
    wrongs
}

fn shuffle(random: &mut Random, bytes: &mut [u8]) {
    for place in (1..bytes.len()).rev() {
        bytes.swap(place, random.below(place + 1));
    }
}

// Anything in what the request has no use for.
fn idle(random: &mut Random, asked: &mut Asked) {
    let any = random.number() as usize >> random.below(64);
    if front(asked.code) == 0 {
        asked.number = any;
    }
    if asked.code != 0x28 {
        asked.other = any;
    }
    if !matches!(asked.code, 0x40 | 0x41) {
        asked.block = any;
    }
    if !matches!(asked.code, 0x24 | 0x26) {
        asked.operation = any as u8;
    }
    if !carries_bytes(asked.code) && random.once_in(4) {
        let length = random.choose(&[1, 5, 300, MOST_PACKET]);
        asked.bytes = random.bytes(length);
    }
}

fn carries_bytes(code: u8) -> bool {
    matches!(code, 0x20 | 0x22 | 0x24 | 0x26 | 0x28 | 0x30 | 0x41 | 0x50)
}

// Numbers that don't go into their bytes, no request of 01's table, payloads around the longest.
fn twist(random: &mut Random, asked: &mut Asked) {
    match random.below(8) {
        0 => asked.number = past(random, asked.number, 256),
        1 => asked.other = past(random, asked.other, 256),
        2 => asked.block = past(random, asked.block, 65_536),
        3 => asked.operation = random.byte(),
        4 => asked.code = random.byte(),
        _ => {
            let most = MOST_PAYLOAD - front(asked.code);
            let wrapped = 65_536 + random.below(16);
            let length = random.choose(&[most - 1, most, most, most + 1, most + 1, most + 2]);
            let length = if random.once_in(32) { wrapped } else { length };
            asked.bytes = random.bytes(length);
        }
    }
}

// A number from `end` on that might be taken for a smaller one.
fn past(random: &mut Random, number: usize, end: usize) -> usize {
    let wrapped = number % end + end;
    let wide = number % end + (1 << 32);
    random.choose(&[end, end + 1, wrapped, wrapped, wide, usize::MAX])
}

fn destination(random: &mut Random, own: u8) -> u8 {
    match random.below(32) {
        0 => random.byte(),
        1 => random.choose(&[0, 1, 31, 32, 247, 248, 255]),
        2 => random.within(248, 255) as u8,
        _ => own,
    }
}

fn room(random: &mut Random) -> usize {
    if random.once_in(64) {
        return random.choose(&[0, 1, 5, MOST_PACKET - 1, MOST_PACKET + 1, 2 * MOST_PACKET]);
    }
    MOST_PACKET
}
