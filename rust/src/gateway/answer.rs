//! What a reply says.
use crate::wire::WireError;
use crate::{Curve, Function, VariableNumber, MOST_VARIABLES, SUM_SIZE};
use std::iter::FusedIterator;
use std::marker::PhantomData;

/// What a reply says to its request. It borrows the reply, and not the gateway.
#[derive(Clone, Debug, PartialEq, Eq)]
pub enum Answer<'reply> {
    /// E1 to E8: nothing was done.
    Error(WireError),
    /// E0: it is done.
    Done,
    /// 01: the protocol version, 02 14 00.
    Version([u8; 3]),
    /// 03: the variables, in order of number.
    Variables(Records<'reply, ListedVariable>),
    /// 05: the groups, in order of number.
    Groups(Records<'reply, ListedGroup>),
    /// 07: the members of a group, ascending.
    Members(Records<'reply, VariableNumber>),
    /// 09: the curves, in order of number.
    Curves(Records<'reply, Curve>),
    /// 0D: the functions, in order of number.
    Functions(Records<'reply, Function>),
    /// 11 or 13: values, each with its variable, ascending.
    Values(Values<'reply>),
    /// 41: a block's bytes.
    Block(&'reply [u8]),
    /// 0B: a curve's sum.
    Sum(&'reply [u8; SUM_SIZE]),
    /// 51: a function's output.
    Output(&'reply [u8]),
    /// 53: a function failed, with this error byte.
    Failed(u8),
}

/// A variable as list 03 has it. Its kind doesn't travel.
#[derive(Clone, Copy, Debug, PartialEq, Eq, Hash)]
pub struct ListedVariable {
    /// Whether messages may write it.
    pub writable: bool,
    /// The size: 1 to 127 bytes.
    pub size: u8,
}

/// A group as list 05 has it.
#[derive(Clone, Copy, Debug, PartialEq, Eq, Hash)]
pub struct ListedGroup {
    /// Whether messages may write it.
    pub writable: bool,
    /// How many variables it has: 0 to 64.
    pub members: u8,
}

/// What a list has records of.
pub trait Record {
    /// How many bytes a record has.
    const BYTES: usize;
    /// The record of these bytes.
    fn of(bytes: &[u8]) -> Self;
}

// A byte of lists 03 and 05: the top bit, and the low seven.
fn split(bytes: &[u8]) -> (bool, u8) {
    let byte = bytes.first().copied().unwrap_or_default();
    (byte & 0x80 != 0, byte & 0x7F)
}

impl Record for ListedVariable {
    const BYTES: usize = 1;

    fn of(bytes: &[u8]) -> ListedVariable {
        let (writable, size) = split(bytes);
        ListedVariable { writable, size }
    }
}

impl Record for ListedGroup {
    const BYTES: usize = 1;

    fn of(bytes: &[u8]) -> ListedGroup {
        let (writable, members) = split(bytes);
        ListedGroup { writable, members }
    }
}

impl Record for VariableNumber {
    const BYTES: usize = 1;

    fn of(bytes: &[u8]) -> VariableNumber {
        VariableNumber(bytes.first().copied().unwrap_or_default().into())
    }
}

impl Record for Curve {
    const BYTES: usize = 5;

    // 65,536 blocks are sent as 0.
    fn of(bytes: &[u8]) -> Curve {
        let byte = |place: usize| u32::from(bytes.get(place).copied().unwrap_or_default());
        let blocks = byte(3) << 8 | byte(4);
        Curve {
            writable: byte(0),
            block_size: byte(1) << 8 | byte(2),
            blocks: if blocks == 0 { 0x1_0000 } else { blocks },
        }
    }
}

impl Record for Function {
    const BYTES: usize = 1;

    fn of(bytes: &[u8]) -> Function {
        let byte = bytes.first().copied().unwrap_or_default();
        Function {
            input: byte >> 4,
            output: byte & 0x0F,
        }
    }
}

/// The records of a list, one after the other: an iterator over them. `len` tells how many are left.
#[derive(Clone, Debug, PartialEq, Eq)]
pub struct Records<'reply, R> {
    bytes: &'reply [u8],
    of: PhantomData<R>,
}

impl<'reply, R> Records<'reply, R> {
    pub(super) fn new(bytes: &'reply [u8]) -> Records<'reply, R> {
        Records {
            bytes,
            of: PhantomData,
        }
    }

    /// The records that are left, as they stand in the reply.
    pub fn bytes(&self) -> &'reply [u8] {
        self.bytes
    }
}

impl<R: Record> Iterator for Records<'_, R> {
    type Item = R;

    fn next(&mut self) -> Option<R> {
        let record = self.bytes.get(..R::BYTES)?;
        self.bytes = &self.bytes[R::BYTES..];
        Some(R::of(record))
    }

    fn size_hint(&self) -> (usize, Option<usize>) {
        let count = self.bytes.len() / R::BYTES;
        (count, Some(count))
    }
}

impl<R: Record> ExactSizeIterator for Records<'_, R> {}

impl<R: Record> FusedIterator for Records<'_, R> {}

/// The values in a reply: an iterator over variables, ascending, each with its bytes.
#[derive(Clone, Debug, PartialEq, Eq)]
pub struct Values<'reply> {
    bytes: &'reply [u8],
    // How many bytes each variable has in the reply; 0 if it is not in there.
    lengths: [u8; MOST_VARIABLES],
    next: usize,
}

impl<'reply> Values<'reply> {
    pub(super) fn new(bytes: &'reply [u8], lengths: [u8; MOST_VARIABLES]) -> Values<'reply> {
        Values {
            bytes,
            lengths,
            next: 0,
        }
    }

    /// The values that are left, one behind the other, as they stand in the reply.
    pub fn bytes(&self) -> &'reply [u8] {
        self.bytes
    }
}

impl<'reply> Iterator for Values<'reply> {
    type Item = (VariableNumber, &'reply [u8]);

    fn next(&mut self) -> Option<(VariableNumber, &'reply [u8])> {
        loop {
            let length = usize::from(*self.lengths.get(self.next)?);
            let variable = VariableNumber(self.next);
            self.next += 1;
            if length > 0 {
                let (value, rest) = self.bytes.split_at(length.min(self.bytes.len()));
                self.bytes = rest;
                return Some((variable, value));
            }
        }
    }
}

impl FusedIterator for Values<'_> {}
