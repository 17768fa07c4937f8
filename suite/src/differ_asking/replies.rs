//! Replies that nearly fit a request, and some that do: drawn for what the asking side knows.
use super::asked::Asked;
use super::damage::{mend, mend_size};
use crate::packets::{message, packet};
use crate::random::Random;
use crate::second_asking::Learned;
use cruachvel::MOST_PACKET;

/// A reply to the master, mostly with the code of the request's answer.
pub(super) fn nearly(random: &mut Random, known: &Learned, asked: &Asked) -> Vec<u8> {
    let code = code(random, asked.code);
    let mut payload = payload(random, known, asked, code);
    match random.below(12) {
        0 => payload.push(random.byte()),
        1 => drop(payload.pop()),
        _ => (),
    }
    let destination = if random.once_in(24) {
        random.choose(&[1, 5, 255, 248])
    } else {
        0
    };
    packet(destination, &message(code, &payload))
}

/// Random bytes of any length, mostly to the master and with the right sum; some of them with the right SIZE.
pub(super) fn noise(random: &mut Random, asked: &Asked) -> Vec<u8> {
    let around = random.within(MOST_PACKET - 1, MOST_PACKET + 2);
    let short = random.below(24);
    let length = random.choose(&[0, 1, 2, 3, 4, 5, 6, short, short, short, around]);
    let mut reply = random.bytes(length);
    if let (Some(first), false) = (reply.first_mut(), random.once_in(8)) {
        *first = 0;
    }
    if let (Some(second), true) = (reply.get_mut(1), random.once_in(2)) {
        *second = code(random, asked.code);
    }
    if random.once_in(2) {
        mend_size(&mut reply);
    }
    if !random.once_in(4) {
        mend(&mut reply);
    }
    reply
}

// The code of 01's answer, often; one beside it; another answer's; an error's, or what is none.
fn code(random: &mut Random, request: u8) -> u8 {
    let right = match request {
        0x28 => 0x11,
        0x50 => random.choose(&[0x51, 0x53]),
        0x00..=0x12 | 0x40 => request + 1,
        _ => 0xE0,
    };
    let any = random.byte();
    let near = [right.wrapping_add(1), right.wrapping_sub(1)];
    let other = [
        0x01, 0x03, 0x05, 0x07, 0x09, 0x0B, 0x0D, 0x11, 0x13, 0x41, 0x51, 0x53,
    ];
    match random.below(16) {
        0 => random.choose(&near),
        1 => random.choose(&other),
        2 => random.choose(&[0xE0, 0xE9, 0xDF, 0xF0, any]),
        3 => random.within(0xE1, 0xE8) as u8,
        _ => right,
    }
}

fn payload(random: &mut Random, known: &Learned, asked: &Asked, code: u8) -> Vec<u8> {
    match code {
        0x01 if random.once_in(4) => random.bytes(3),
        0x01 => vec![2, 20, 0],
        0x03 => variables(random),
        0x05 => groups(random),
        0x07 => ids(random, known.variables.len().min(64)),
        0x09 => curves(random),
        0x0B => random.bytes(16),
        0x0D => {
            let count = random.choose(&[0, 1, 3, 15, 16, 17]);
            random.bytes(count)
        }
        0x11 | 0x13 => values(random, known, asked),
        0x41 => block(random, known, asked),
        0x51 => {
            let function = known.functions.get(asked.number);
            random.bytes(function.map_or(1, |&(_, output)| output.into()))
        }
        0x53 => random.bytes(1),
        _ => vec![],
    }
}

fn variables(random: &mut Random) -> Vec<u8> {
    let count = random.choose(&[1, 2, 3, 8, 32, 33, 63, 64, 65]);
    let most = random.choose(&[1, 8, 64, 127]);
    let mut list: Vec<u8> = (0..count)
        .map(|_| random.choose(&[0, 0x80]) | random.within(1, most) as u8)
        .collect();
    if random.once_in(6) {
        list[random.below(count)] = random.choose(&[0x00, 0x80]);
    }
    if random.once_in(6) {
        // 4,096 bytes together, or one more.
        list = vec![64; 64];
        list[random.below(64)] += random.below(2) as u8;
    }
    list
}

fn groups(random: &mut Random) -> Vec<u8> {
    let count = random.choose(&[2, 3, 3, 4, 5, 6, 7, 8, 8, 9]);
    let members = |random: &mut Random| random.choose(&[1, 1, 2, 5, 63, 64]);
    let mut list: Vec<u8> = (0..count)
        .map(|_| random.choose(&[0, 0x80]) | members(random))
        .collect();
    if random.once_in(3) {
        list[random.below(count)] = random.choose(&[0, 0x80, 65, 0x80 | 65, 127]);
    }
    list
}

// Of `count` variables, ascending; or not.
fn ids(random: &mut Random, count: usize) -> Vec<u8> {
    let every = random.choose(&[1, 2, 8]);
    let mut ids: Vec<u8> = (0..count as u8).filter(|_| random.once_in(every)).collect();
    if random.once_in(6) && ids.len() > 1 {
        let place = random.below(ids.len() - 1);
        ids[place] = ids[place + 1] + random.below(2) as u8;
    }
    if random.once_in(6) {
        ids.push(random.choose(&[count as u8, 63, 64, 255]));
    }
    ids
}

fn curves(random: &mut Random) -> Vec<u8> {
    if random.once_in(8) {
        // 65,536 bytes together, or one more.
        let blocks = random.within(1, 2) as u8;
        return vec![1, 0, 1, 0xFF, 0xFF, 0, 0, 1, 0, blocks];
    }
    let count = random.choose(&[0, 1, 1, 2, 7, 8, 9]);
    let mut list = Vec::new();
    for _ in 0..count {
        let size: u16 = random.choose(&[1, 4, 255, 256, 4096, 4096]);
        let blocks: u16 = random.choose(&[1, 2, 2, 16, 17]);
        list.push(random.below(2) as u8);
        list.extend(size.to_be_bytes());
        list.extend(blocks.to_be_bytes());
    }
    if count > 0 && random.once_in(2) {
        let record = 5 * random.below(count);
        let spoilt = random.choose(&[
            [0, 0, 1, 0, 0],
            [0, 0, 2, 0, 0],
            [2, 0, 1, 0, 1],
            [255, 0, 1, 0, 1],
            [0, 0, 0, 0, 1],
            [1, 0x10, 0x01, 0, 1],
            [1, 0, 1, 0xFF, 0xFF],
        ]);
        list[record..record + 5].copy_from_slice(&spoilt);
    }
    if random.once_in(8) {
        list.truncate(random.below(list.len() + 1));
    }
    list
}

// As many bytes as the table gives to what was asked for.
fn values(random: &mut Random, known: &Learned, asked: &Asked) -> Vec<u8> {
    let size = |variable: usize| {
        let record = known.variables.get(variable);
        record.map_or(1, |&(_, size)| usize::from(size))
    };
    let length = match asked.code {
        0x10 => size(asked.number),
        0x28 => size(asked.other),
        _ => {
            let members = super::places::members(known, asked.number);
            members.unwrap_or_default().into_iter().map(size).sum()
        }
    };
    random.bytes(length)
}

fn block(random: &mut Random, known: &Learned, asked: &Asked) -> Vec<u8> {
    let size = known.curves.get(asked.number).map_or(1, |curve| curve.1);
    let size = size.clamp(1, 4096) as usize;
    let some = random.within(1, size);
    let length = random.choose(&[0, 1, some, some, size, size, size + 1]);
    let mut curve = asked.number as u8;
    let mut block = asked.block as u16;
    match random.below(8) {
        0 => curve = curve.wrapping_add(random.choose(&[1, 255])),
        1 => block = block.wrapping_add(random.choose(&[1, 256, 65_535])),
        _ => (),
    }
    let [high, low] = block.to_be_bytes();
    let mut payload = vec![curve, high, low];
    // A packet has room for 4,099.
    payload.extend(random.bytes(length.min(4096)));
    payload
}
