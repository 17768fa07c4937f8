//! Replies: what each answer puts into one.
#![forbid(unsafe_code)]

use super::codes::*;
use super::message::{Answer, Node};

impl Node<'_> {
    /// Writes the reply and gives its length.
    pub(super) fn write_answer(&self, answer: Answer, buffer: &mut [u8]) -> usize {
        let mut reply = Reply::new(buffer);
        let command = match answer {
            Answer::Done | Answer::Run { .. } => DONE,
            Answer::Version => {
                reply.put(&[0x02, 0x14, 0x00]);
                VERSION
            }
            Answer::VariableList => self.put_variable_list(&mut reply),
            Answer::GroupList => self.put_group_list(&mut reply),
            Answer::Group(set) => put_numbers(set, &mut reply),
            Answer::CurveList => self.put_curve_list(&mut reply),
            Answer::CurveSum(place) => {
                reply.put(&self.sums[place]);
                CURVE_SUM
            }
            Answer::FunctionList => self.put_function_list(&mut reply),
            Answer::VariableValue(set) => {
                self.put_values(set, &mut reply);
                VARIABLE_VALUE
            }
            Answer::GroupValues(set) => {
                self.put_values(set, &mut reply);
                GROUP_VALUES
            }
            Answer::Block { front, place } => {
                reply.put(&front);
                reply.put(&self.blocks[place]);
                BLOCK
            }
        };
        reply.finish(command)
    }

    fn put_variable_list(&self, reply: &mut Reply) -> u8 {
        for variable in self.board.layout.variables {
            reply.put(&[variable.writable << 7 | variable.size]);
        }
        VARIABLE_LIST
    }

    fn put_group_list(&self, reply: &mut Reply) -> u8 {
        let mut id = 0;
        while let Ok(group) = self.group(id) {
            reply.put(&[u8::from(group.writable) << 7 | group.set.count_ones() as u8]);
            id += 1;
        }
        GROUP_LIST
    }

    fn put_curve_list(&self, reply: &mut Reply) -> u8 {
        for curve in self.board.curves() {
            let [size_high, size_low] = (curve.block_size as u16).to_be_bytes();
            // 65,536 blocks are sent as 0.
            let [blocks_high, blocks_low] = (curve.blocks as u16).to_be_bytes();
            reply.put(&[
                u8::from(curve.writable),
                size_high,
                size_low,
                blocks_high,
                blocks_low,
            ]);
        }
        CURVE_LIST
    }

    fn put_function_list(&self, reply: &mut Reply) -> u8 {
        for (input, output) in self.board.functions() {
            reply.put(&[input << 4 | output]);
        }
        FUNCTION_LIST
    }

    fn put_values(&self, set: u64, reply: &mut Reply) {
        for piece in self.board.layout.pieces(set) {
            reply.put(&self.values[piece]);
        }
    }
}

fn put_numbers(set: u64, reply: &mut Reply) -> u8 {
    let mut rest = set;
    while rest != 0 {
        reply.put(&[rest.trailing_zeros() as u8]);
        rest &= rest - 1;
    }
    GROUP
}

/// A reply in the making: the payload is put first, from place 4 on.
pub(super) struct Reply<'a> {
    buffer: &'a mut [u8],
    end: usize,
}

impl<'a> Reply<'a> {
    fn new(buffer: &'a mut [u8]) -> Reply<'a> {
        Reply { buffer, end: 4 }
    }

    /// Writes a reply whose payload stands together; gives its length.
    pub(super) fn whole(buffer: &'a mut [u8], command: u8, payload: &[u8]) -> usize {
        let mut reply = Reply::new(buffer);
        reply.put(payload);
        reply.finish(command)
    }

    fn put(&mut self, bytes: &[u8]) {
        let end = self.end + bytes.len();
        self.buffer[self.end..end].copy_from_slice(bytes);
        self.end = end;
    }

    /// Sets destination 0, the command, SIZE and the checksum; gives the reply's length.
    fn finish(self, command: u8) -> usize {
        let [high, low] = ((self.end - 4) as u16).to_be_bytes();
        self.buffer[..4].copy_from_slice(&[0, command, high, low]);
        self.buffer[self.end] = sum(&self.buffer[..self.end]).wrapping_neg();
        self.end + 1
    }
}

/// The bytes' sum modulo 256.
pub(super) fn sum(bytes: &[u8]) -> u8 {
    bytes.iter().fold(0, |sum, &byte| sum.wrapping_add(byte))
}
