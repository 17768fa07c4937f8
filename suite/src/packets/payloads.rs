//! The payloads of every command, and the busy marks that go with them.
use super::{Drawer, Wrong, OPERATIONS};
use crate::boards::some_set;
use crate::lent::members;
use cruachvel::MOST_BLOCKS;

impl Drawer<'_> {
    // The payload, and the variables that the message reads or writes.
    pub(super) fn payload(&mut self, command: u8, wrongs: &[Wrong]) -> (Vec<u8>, u64) {
        match command {
            0x06 | 0x0A | 0x42 => (vec![self.named(command, wrongs).0], 0),
            0x10 | 0x12 => {
                let (number, thing) = self.named(command, wrongs);
                (vec![number], thing.set)
            }
            0x20..=0x28 => self.write(command, wrongs),
            0x30 => (self.new_group(wrongs), 0),
            0x40 | 0x41 => (self.block(command, wrongs), 0),
            0x50 => {
                let (number, thing) = self.named(command, wrongs);
                let length = self.length(thing.bytes, wrongs);
                (self.with_data(&[number], length), 0)
            }
            _ => (Vec::new(), 0),
        }
    }

    // 20, 22, 24, 26, 28
    fn write(&mut self, command: u8, wrongs: &[Wrong]) -> (Vec<u8>, u64) {
        let (mut number, thing) = self.named(command, wrongs);
        let mut front = vec![number];
        let mut touched = thing.set;
        if matches!(command, 0x24 | 0x26) {
            front.push(self.operation(wrongs));
        }
        if command == 0x28 {
            let mut read = self.random.below(self.lent.variables.len()) as u8;
            touched |= 1 << (read % 64);
            if wrongs.contains(&Wrong::Number) && self.random.once_in(2) {
                std::mem::swap(&mut number, &mut read);
            }
            front = vec![number, read];
        }
        let length = self.length(thing.bytes, wrongs);
        (self.with_data(&front, length), touched)
    }

    fn operation(&mut self, wrongs: &[Wrong]) -> u8 {
        let mut operation = self.random.choose(&OPERATIONS);
        while wrongs.contains(&Wrong::Operation) && OPERATIONS.contains(&operation) {
            operation = self.random.byte();
        }
        operation
    }

    fn block(&mut self, command: u8, wrongs: &[Wrong]) -> Vec<u8> {
        let (number, thing) = self.named(command, wrongs);
        let blocks = self
            .curve(number.into())
            .map_or(1, |record| record[2] as usize);
        let block = if wrongs.contains(&Wrong::Value) {
            self.random.choose(&[blocks, blocks + 1, 0xFFFF])
        } else {
            self.known_block(blocks.min(MOST_BLOCKS))
        };
        let block = (block.min(0xFFFF) as u16).to_be_bytes();
        let front = [number, block[0], block[1]];
        if command == 0x40 {
            return front.to_vec();
        }
        let size = thing.bytes.clamp(1, 4097);
        let length = if wrongs.contains(&Wrong::Length) {
            self.random.choose(&[0, size + 1])
        } else {
            let some = self.random.within(1, size);
            self.random.choose(&[size, some])
        };
        self.with_data(&front, length)
    }

    // Often the first, a middle one or the last, so that the same is written and read again where there are many.
    fn known_block(&mut self, blocks: usize) -> usize {
        let any = self.random.below(blocks);
        let last = blocks.saturating_sub(1);
        self.random.choose(&[any, any, any, 0, blocks / 2, last])
    }

    fn new_group(&mut self, wrongs: &[Wrong]) -> Vec<u8> {
        let set = some_set(self.random, self.lent.variables.len().clamp(1, 64));
        let mut numbers: Vec<u8> = members(set).map(|number| number as u8).collect();
        if wrongs.contains(&Wrong::Value) {
            // Two the wrong way round, or one twice; the rest stays ascending.
            if numbers.len() == 1 {
                numbers.push(numbers[0]);
            } else {
                let place = self.random.below(numbers.len() - 1);
                let earlier = self.random.choose(&[numbers[place], numbers[place + 1]]);
                numbers[place + 1] = numbers[place];
                numbers[place] = earlier;
            }
        }
        if wrongs.contains(&Wrong::Number) {
            let unknown = self.unknown(self.lent.variables.len());
            // At the end it keeps the order, if that is to be right.
            let place = match wrongs.contains(&Wrong::Value) {
                true => self.random.below(numbers.len()),
                false => numbers.len() - 1,
            };
            numbers[place] = unknown;
        }
        numbers
    }

    fn length(&mut self, right: usize, wrongs: &[Wrong]) -> usize {
        if !wrongs.contains(&Wrong::Length) {
            return right;
        }
        let shorter = right.saturating_sub(1);
        let length = self.random.choose(&[shorter, right + 1, 2 * right, 0]);
        if length == right {
            right + 1
        } else {
            length
        }
    }

    fn with_data(&mut self, front: &[u8], length: usize) -> Vec<u8> {
        let mut payload = vec![0; front.len() + length];
        payload[..front.len()].copy_from_slice(front);
        self.random.fill(&mut payload[front.len()..]);
        payload
    }

    pub(super) fn busy(&mut self, touched: u64, wrongs: &[Wrong]) -> u64 {
        let others = self.random.number() & !touched;
        if !wrongs.contains(&Wrong::Busy) {
            return self.random.choose(&[0, others]);
        }
        let touched: Vec<usize> = members(touched).collect();
        if touched.is_empty() {
            return u64::MAX;
        }
        self.random.choose(&[0, others]) | 1 << self.random.choose(&touched)
    }
}
