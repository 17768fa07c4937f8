//! A message, carried out on a usable board: the commands, and the wire errors in their order.
#![forbid(unsafe_code)]

use super::board::{Board, Curve, Groups, MADE_MOST};
use super::codes::*;
use core::ops::Range;

/// What a message without error asks to be sent or run.
pub(super) enum Answer {
    Done,
    Version,
    VariableList,
    GroupList,
    Group(u64),
    CurveList,
    CurveSum(Range<usize>),
    FunctionList,
    VariableValue(u64),
    GroupValues(u64),
    Block { front: [u8; 3], place: Range<usize> },
    Run { function: usize, input: usize },
}

/// One variable or the members of one group, bit n for variable n.
#[derive(Clone, Copy)]
pub(super) struct Members {
    pub(super) set: u64,
    pub(super) writable: bool,
}

/// A usable board and its state.
pub(super) struct Node<'a> {
    pub(super) board: &'a Board<'a>,
    pub(super) groups: &'a mut Groups,
    /// Bit n for variable n; higher bits count for nothing, since no set has them.
    pub(super) busy: u64,
    pub(super) values: &'a mut [u8],
    pub(super) blocks: &'a mut [u8],
    pub(super) lengths: &'a mut [u16],
    pub(super) sums: &'a mut [u8],
}

/// A named block: its curve, where it starts in the curves' store, and the place of its length.
struct Block {
    curve: Curve,
    start: usize,
    length_place: usize,
}

impl Node<'_> {
    /// Carries out a message: what is to be sent or run, or a wire error.
    pub(super) fn carry_out(&mut self, message: &[u8]) -> Result<Answer, u8> {
        let ([command, high, low], payload) = front(message, MALFORMED)?;
        if usize::from(u16::from_be_bytes([high, low])) != payload.len() {
            return Err(MALFORMED);
        }
        match command {
            0x00 => bare(payload, Answer::Version),
            0x02 => bare(payload, Answer::VariableList),
            0x04 => bare(payload, Answer::GroupList),
            0x06 => Ok(Answer::Group(self.group(one(payload)?)?.set)),
            0x08 => bare(payload, Answer::CurveList),
            0x0A => self.read_sum(payload),
            0x0C => bare(payload, Answer::FunctionList),
            0x10 => self.read_variable(payload),
            0x12 => self.read_group(payload),
            0x20 => self.write_variable(payload),
            0x22 => self.write_group(payload),
            0x24 => self.mask_variable(payload),
            0x26 => self.mask_group(payload),
            0x28 => self.write_and_read(payload),
            0x30 => self.make_group(payload),
            0x32 => self.remove_groups(payload),
            0x40 => self.read_block(payload),
            0x41 => self.write_block(payload),
            0x42 => self.renew_sum(payload),
            0x50 => self.run(payload),
            _ => Err(NOT_SUPPORTED),
        }
    }

    fn read_variable(&self, payload: &[u8]) -> Result<Answer, u8> {
        let set = self.variable(one(payload)?)?.set;
        self.none_busy(set)?;
        Ok(Answer::VariableValue(set))
    }

    fn read_group(&self, payload: &[u8]) -> Result<Answer, u8> {
        let set = self.group(one(payload)?)?.set;
        self.none_busy(set)?;
        Ok(Answer::GroupValues(set))
    }

    fn write_variable(&mut self, payload: &[u8]) -> Result<Answer, u8> {
        let ([variable], value) = front(payload, PAYLOAD_SIZE)?;
        self.write(self.variable(variable)?, value)
    }

    fn write_group(&mut self, payload: &[u8]) -> Result<Answer, u8> {
        let ([group], values) = front(payload, PAYLOAD_SIZE)?;
        self.write(self.group(group)?, values)
    }

    fn mask_variable(&mut self, payload: &[u8]) -> Result<Answer, u8> {
        let ([variable, operation], mask) = front(payload, PAYLOAD_SIZE)?;
        self.mask(self.variable(variable)?, operation, mask)
    }

    fn mask_group(&mut self, payload: &[u8]) -> Result<Answer, u8> {
        let ([group, operation], masks) = front(payload, PAYLOAD_SIZE)?;
        self.mask(self.group(group)?, operation, masks)
    }

    fn write_and_read(&mut self, payload: &[u8]) -> Result<Answer, u8> {
        let ([written, read], value) = front(payload, PAYLOAD_SIZE)?;
        let written = self.variable(written)?;
        let read = self.variable(read)?;
        self.takes(written, value.len())?;
        // The read one's mark counts before the write too, since an error changes no byte.
        self.none_busy(written.set | read.set)?;
        self.replace(written.set, value);
        Ok(Answer::VariableValue(read.set))
    }

    fn make_group(&mut self, ids: &[u8]) -> Result<Answer, u8> {
        let declared = self.board.layout.variables.len();
        if ids.is_empty() || ids.len() > declared {
            return Err(PAYLOAD_SIZE);
        }
        let mut set = 0;
        let mut ascending = true;
        for &id in ids {
            let member = self.variable(id)?.set;
            // The one bit is above all bits before it.
            ascending &= member > set;
            set |= member;
        }
        if !ascending {
            return Err(BAD_VALUE);
        }
        let made = self.groups.count as usize;
        if made >= MADE_MOST {
            return Err(GROUPS_FULL);
        }
        self.groups.sets[made] = set;
        self.groups.count += 1;
        Ok(Answer::Done)
    }

    fn remove_groups(&mut self, payload: &[u8]) -> Result<Answer, u8> {
        let answer = bare(payload, Answer::Done)?;
        self.groups.count = 0;
        Ok(answer)
    }

    fn read_block(&self, payload: &[u8]) -> Result<Answer, u8> {
        let (front, rest) = front(payload, PAYLOAD_SIZE)?;
        if !rest.is_empty() {
            return Err(PAYLOAD_SIZE);
        }
        let block = self.block(front)?;
        let length = usize::from(self.lengths[block.length_place]);
        let place = block.start..block.start + length;
        Ok(Answer::Block { front, place })
    }

    fn write_block(&mut self, payload: &[u8]) -> Result<Answer, u8> {
        let (front, data) = front(payload, PAYLOAD_SIZE)?;
        let block = self.block(front)?;
        if data.is_empty() || data.len() > block.curve.block_size {
            return Err(PAYLOAD_SIZE);
        }
        if !block.curve.writable {
            return Err(READ_ONLY);
        }
        self.blocks[block.start..block.start + data.len()].copy_from_slice(data);
        self.lengths[block.length_place] = data.len() as u16;
        Ok(Answer::Done)
    }

    fn read_sum(&self, payload: &[u8]) -> Result<Answer, u8> {
        let curve = self.curve(one(payload)?)?;
        Ok(Answer::CurveSum(curve.sum_place()))
    }

    /// For read-only curves too (2026-02): the sum is no part of what they hold.
    fn renew_sum(&mut self, payload: &[u8]) -> Result<Answer, u8> {
        let curve = self.curve(one(payload)?)?;
        curve.renew_sum(self.blocks, self.lengths, self.sums);
        Ok(Answer::Done)
    }

    fn run(&self, payload: &[u8]) -> Result<Answer, u8> {
        let ([function], input) = front(payload, PAYLOAD_SIZE)?;
        let function = usize::from(function);
        let (declared, _) = self.board.functions().nth(function).ok_or(NO_SUCH_ID)?;
        if input.len() != usize::from(declared) {
            return Err(PAYLOAD_SIZE);
        }
        Ok(Answer::Run {
            function,
            input: input.len(),
        })
    }

    fn variable(&self, id: u8) -> Result<Members, u8> {
        if usize::from(id) >= self.board.layout.variables.len() {
            return Err(NO_SUCH_ID);
        }
        let set = 1 << id;
        let writable = self.board.layout.writable & set != 0;
        Ok(Members { set, writable })
    }

    pub(super) fn group(&self, id: u8) -> Result<Members, u8> {
        let all = self.board.layout.all;
        let writable = self.board.layout.writable;
        let set = match id {
            0 => all,
            1 => all & !writable,
            2 => writable,
            _ => self.made_group(usize::from(id - 3))?,
        };
        Ok(Members {
            set,
            writable: id != 1 && set & !writable == 0,
        })
    }

    fn made_group(&self, place: usize) -> Result<u64, u8> {
        let made = self.groups.made().unwrap_or(&[]);
        made.get(place).copied().ok_or(NO_SUCH_ID)
    }

    fn curve(&self, id: u8) -> Result<Curve, u8> {
        self.board.curves().nth(usize::from(id)).ok_or(NO_SUCH_ID)
    }

    /// The named block of the named curve.
    fn block(&self, front: [u8; 3]) -> Result<Block, u8> {
        let [id, high, low] = front;
        let curve = self.curve(id)?;
        let number = usize::from(u16::from_be_bytes([high, low]));
        if number >= curve.blocks {
            return Err(BAD_VALUE);
        }
        Ok(Block {
            curve,
            start: curve.start + number * curve.block_size,
            length_place: curve.first_length + number,
        })
    }

    /// Whether these variables take so many bytes.
    fn takes(&self, members: Members, given: usize) -> Result<(), u8> {
        if given != self.board.layout.length(members.set) {
            return Err(PAYLOAD_SIZE);
        }
        if !members.writable {
            return Err(READ_ONLY);
        }
        Ok(())
    }

    /// Whether a set's variables may be read and written now. Reads go by busy marks too
    /// (2026-01): the board may have renewed half of a busy variable's value only.
    fn none_busy(&self, set: u64) -> Result<(), u8> {
        if self.busy & set != 0 {
            return Err(BUSY);
        }
        Ok(())
    }

    fn write(&mut self, members: Members, values: &[u8]) -> Result<Answer, u8> {
        self.takes(members, values.len())?;
        self.none_busy(members.set)?;
        self.replace(members.set, values);
        Ok(Answer::Done)
    }

    fn replace(&mut self, set: u64, values: &[u8]) {
        let mut rest = values;
        for piece in self.board.layout.pieces(set) {
            let (new, after) = rest.split_at(piece.len());
            self.values[piece].copy_from_slice(new);
            rest = after;
        }
    }

    fn mask(&mut self, members: Members, operation: u8, masks: &[u8]) -> Result<Answer, u8> {
        let operate: fn(&mut [u8], &[u8]) = match operation {
            0x53 | 0x4F => turn_on,
            0x43 => turn_off,
            0x54 | 0x58 => invert,
            0x41 => keep,
            _ => return Err(NOT_SUPPORTED),
        };
        self.takes(members, masks.len())?;
        self.none_busy(members.set)?;
        let mut rest = masks;
        for piece in self.board.layout.pieces(members.set) {
            let (mask, after) = rest.split_at(piece.len());
            operate(&mut self.values[piece], mask);
            rest = after;
        }
        Ok(Answer::Done)
    }
}

/// The answer to a message that carries no payload.
fn bare(payload: &[u8], answer: Answer) -> Result<Answer, u8> {
    if payload.is_empty() {
        Ok(answer)
    } else {
        Err(PAYLOAD_SIZE)
    }
}

/// The payload's only byte.
fn one(payload: &[u8]) -> Result<u8, u8> {
    match payload {
        [byte] => Ok(*byte),
        _ => Err(PAYLOAD_SIZE),
    }
}

/// The first N bytes and what follows them, or the error if there are fewer.
fn front<const N: usize>(bytes: &[u8], error: u8) -> Result<([u8; N], &[u8]), u8> {
    if bytes.len() < N {
        return Err(error);
    }
    let (first, rest) = bytes.split_at(N);
    let first = first.try_into().map_err(|_| error)?;
    Ok((first, rest))
}

fn turn_on(value: &mut [u8], mask: &[u8]) {
    for (byte, bits) in value.iter_mut().zip(mask) {
        *byte |= bits;
    }
}

fn turn_off(value: &mut [u8], mask: &[u8]) {
    for (byte, bits) in value.iter_mut().zip(mask) {
        *byte &= !bits;
    }
}

fn invert(value: &mut [u8], mask: &[u8]) {
    for (byte, bits) in value.iter_mut().zip(mask) {
        *byte ^= bits;
    }
}

fn keep(value: &mut [u8], mask: &[u8]) {
    for (byte, bits) in value.iter_mut().zip(mask) {
        *byte &= bits;
    }
}
