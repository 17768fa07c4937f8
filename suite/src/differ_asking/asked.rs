//! A request in numbers, as the archive takes it.
use crate::packets::{COMMANDS, OPERATIONS};
use crate::second_asking::{Masking, Request};

/// A request by 01's code and the numbers that it names, with its destination and the bytes that go with it.
#[derive(Clone, Debug)]
pub(crate) struct Asked {
    pub(crate) destination: u8,
    pub(crate) code: u8,
    pub(crate) operation: u8,
    pub(crate) number: usize,
    pub(crate) other: usize,
    pub(crate) block: usize,
    pub(crate) bytes: Vec<u8>,
}

impl Asked {
    /// The request of this code to that destination; it names 0 of everything.
    pub(crate) fn new(destination: u8, code: u8) -> Asked {
        Asked {
            destination,
            code,
            operation: 0x53,
            number: 0,
            other: 0,
            block: 0,
            bytes: Vec::new(),
        }
    }

    /// The request that a message stands for; its payload has at least its front.
    pub(crate) fn of(destination: u8, message: &[u8]) -> Asked {
        let mut asked = Asked::new(destination, message[0]);
        let (front, bytes) = message[3..].split_at(front(message[0]));
        asked.bytes = bytes.to_vec();
        asked.number = front.first().copied().unwrap_or(0).into();
        match (asked.code, front) {
            (0x24 | 0x26, &[_, operation]) => asked.operation = operation,
            (0x28, &[_, other]) => asked.other = other.into(),
            (_, &[_, high, low]) => asked.block = u16::from_be_bytes([high, low]).into(),
            _ => (),
        }
        asked
    }

    /// The same as the second side has it; none if 01's table has no such request.
    pub(super) fn request(&self) -> Option<Request> {
        let (number, curve, block) = (self.number, self.number, self.block);
        Some(match self.code {
            0x00 => Request::Version,
            0x02 => Request::ListVariables,
            0x04 => Request::ListGroups,
            0x06 => Request::ShowGroup(number),
            0x08 => Request::ListCurves,
            0x0A => Request::ReadSum(number),
            0x0C => Request::ListFunctions,
            0x10 => Request::ReadVariable(number),
            0x12 => Request::ReadGroup(number),
            0x20 => Request::WriteVariable(number),
            0x22 => Request::WriteGroup(number),
            0x24 => Request::MaskVariable(number, masking(self.operation)?),
            0x26 => Request::MaskGroup(number, masking(self.operation)?),
            0x28 => Request::WriteRead {
                written: number,
                read: self.other,
            },
            0x30 => Request::MakeGroup,
            0x32 => Request::RemoveGroups,
            0x40 => Request::ReadBlock { curve, block },
            0x41 => Request::WriteBlock { curve, block },
            0x42 => Request::RenewSum(number),
            0x50 => Request::RunFunction(number),
            _ => return None,
        })
    }

    /// Whether it goes to all that joined the destination.
    pub(super) fn is_multicast(&self) -> bool {
        self.destination >= 248
    }
}

fn masking(operation: u8) -> Option<Masking> {
    Some(match operation {
        0x53 => Masking::Set,
        0x4F => Masking::Or,
        0x43 => Masking::Clear,
        0x54 => Masking::Toggle,
        0x58 => Masking::Xor,
        0x41 => Masking::And,
        _ => return None,
    })
}

/// How many bytes of the payload stand before those that go with the request.
pub(super) fn front(code: u8) -> usize {
    match code {
        0x06 | 0x0A | 0x10 | 0x12 | 0x20 | 0x22 | 0x42 | 0x50 => 1,
        0x24 | 0x26 | 0x28 => 2,
        0x40 | 0x41 => 3,
        _ => 0,
    }
}

/// Why a request can't be written, where destination and buffer are right.
#[derive(Clone, Copy, Debug, PartialEq, Eq)]
pub(super) enum Unwritable {
    Code,
    Operation,
    Number,
    Other,
    Block,
    Payload,
}

/// The same in words, in that order.
pub(super) const UNWRITABLE: [&str; 6] = [
    "no request of 01's table",
    "no operation",
    "ID over 255",
    "ID to be read over 255",
    "block over 65,535",
    "payload over 4,099 bytes",
];

impl Unwritable {
    /// By hand; none if the request can be written.
    pub(super) fn of(asked: &Asked) -> Option<Unwritable> {
        let front = front(asked.code);
        let carries_bytes = matches!(asked.code, 0x20..=0x30 | 0x41 | 0x50);
        let carried = if carries_bytes { asked.bytes.len() } else { 0 };
        Some(match asked.code {
            code if !COMMANDS.contains(&code) => Unwritable::Code,
            0x24 | 0x26 if !OPERATIONS.contains(&asked.operation) => Unwritable::Operation,
            _ if front > 0 && asked.number > 255 => Unwritable::Number,
            0x28 if asked.other > 255 => Unwritable::Other,
            0x40 | 0x41 if asked.block > 65_535 => Unwritable::Block,
            _ if front + carried > 4099 => Unwritable::Payload,
            _ => return None,
        })
    }
}
