//! A call on both nodes, and how one is drawn.
use crate::packets::{Draft, Drawer};
use crate::random::Random;
use crate::second;
use crate::second_lent::SecondLent;
use cruachvel::MOST_PACKET;

/// One call, with the bytes that it is given and the length of the buffer that it may write.
#[derive(Clone, Debug)]
pub struct Call {
    pub entry: Entry,
    pub given: Vec<u8>,
    pub room: usize,
}

/// Which entry is called, with what numbers.
#[derive(Clone, Debug)]
pub enum Entry {
    Packet {
        busy: u64,
        draft: Option<Draft>,
    },
    Result {
        function: usize,
        due: bool,
        ran: second::Ran,
    },
    Store {
        variable: usize,
    },
    Fresh,
    ReadSigned {
        variable: usize,
    },
    ReadUnsigned {
        variable: usize,
    },
    WriteSigned {
        variable: usize,
        number: i64,
    },
    WriteUnsigned {
        variable: usize,
        number: u64,
    },
}

// Packets mostly, and of the rest what is fitting for the board more often than not.
pub(super) fn draw(random: &mut Random, second: &SecondLent) -> Call {
    let kind = random.below(32);
    match kind {
        0 => draw_noise(random, second),
        1..=3 => draw_result(random, second),
        4 | 5 => draw_store(random, second),
        6..=8 => draw_number(random, second),
        // Seldom, as it leaves no sum stale.
        9 if random.once_in(8) => Call {
            entry: Entry::Fresh,
            given: Vec::new(),
            room: second.buffer.len(),
        },
        _ => draw_packet(random, second),
    }
}

fn reply_room(random: &mut Random) -> usize {
    if random.once_in(64) {
        return random.choose(&[0, 1, MOST_PACKET - 1, MOST_PACKET + 1, 2 * MOST_PACKET]);
    }
    MOST_PACKET
}

fn draw_packet(random: &mut Random, second: &SecondLent) -> Call {
    let (lent, groups) = (&second.lent, &second.groups());
    let (given, draft) = Drawer {
        random,
        lent,
        groups,
    }
    .packet();
    Call {
        entry: Entry::Packet {
            busy: draft.busy,
            draft: Some(draft),
        },
        given,
        room: reply_room(random),
    }
}

fn draw_noise(random: &mut Random, second: &SecondLent) -> Call {
    let (lent, groups) = (&second.lent, &second.groups());
    let given = Drawer {
        random,
        lent,
        groups,
    }
    .noise();
    Call {
        entry: Entry::Packet {
            busy: random.number(),
            draft: None,
        },
        given,
        room: reply_room(random),
    }
}

// One of `count` things, or none of them.
pub(crate) fn some_number(random: &mut Random, count: usize) -> usize {
    if random.once_in(16) {
        return random.choose(&[count, count + 1, 256, 1 << 32, usize::MAX]);
    }
    random.below(count)
}

// A length that is right, or not.
pub(crate) fn some_length(random: &mut Random, right: usize) -> usize {
    if random.once_in(8) {
        return random.choose(&[0, right.saturating_sub(1), right + 1, 2 * right, 300]);
    }
    right
}

fn draw_result(random: &mut Random, second: &SecondLent) -> Call {
    let functions = &second.lent.functions;
    let function = some_number(random, functions.len() / 2);
    let output = functions
        .chunks_exact(2)
        .nth(function)
        .map_or(0, |record| record[1]);
    let length = some_length(random, output.into());
    let error = random.byte();
    Call {
        entry: Entry::Result {
            function,
            due: !random.once_in(4),
            ran: random.choose(&[
                second::Ran::Well,
                second::Ran::Well,
                second::Ran::Failed(error),
            ]),
        },
        given: random.bytes(length),
        room: reply_room(random),
    }
}

fn draw_store(random: &mut Random, second: &SecondLent) -> Call {
    let variables = &second.variables;
    let variable = some_number(random, variables.len());
    let size = variables.get(variable).map_or(0, |record| record.size);
    let length = some_length(random, size.into());
    Call {
        entry: Entry::Store { variable },
        given: random.bytes(length),
        room: second.buffer.len(),
    }
}

fn draw_number(random: &mut Random, second: &SecondLent) -> Call {
    let variables = &second.variables;
    let variable = some_number(random, variables.len());
    let record = variables.get(variable).copied();
    let size = record.map_or(0, |record| record.size);
    let signed = record.map_or(false, |record| record.kind >= 3) != random.once_in(8);
    let length = some_length(random, size.into());
    let number = some_value(random, size);
    let entry = match (signed, random.once_in(2)) {
        (true, true) => Entry::ReadSigned { variable },
        (false, true) => Entry::ReadUnsigned { variable },
        (true, false) => Entry::WriteSigned {
            variable,
            number: number as i64,
        },
        (false, false) => Entry::WriteUnsigned { variable, number },
    };
    Call {
        entry,
        given: random.bytes(length),
        room: length,
    }
}

// Numbers around the edges of what n bytes hold, of either sign, and others.
pub(crate) fn some_value(random: &mut Random, size: u8) -> u64 {
    let bits = u32::from(size).min(8) * 8;
    let whole = 1u64.checked_shl(bits).unwrap_or(0);
    let half = whole / 2;
    let any = random.number() >> random.below(64);
    let edge = random.choose(&[0, whole, half, half.wrapping_neg(), 1 << 63]);
    let near = edge.wrapping_add(random.below(5) as u64).wrapping_sub(2);
    random.choose(&[near, near, any, any.wrapping_neg()])
}
