//! A call of every entry, and how it was refused.
use cruachvel::{read_signed, read_unsigned, write_signed, write_unsigned};
use cruachvel::{Outcome, Ran, Refusal, VariableNumber};
use suite::lent::Lent;
use suite::packets::{message, packet};

pub const VERSION: u8 = 0x00;
pub const FILLING: u8 = 0x5C;

/// A call that a usable board with board A's first variables and functions accepts.
#[derive(Clone, Copy, Debug)]
pub enum Entry {
    Packet,
    FunctionResult,
    BoardStore,
    FreshBoard,
    ReadSigned,
    ReadUnsigned,
    WriteSigned,
    WriteUnsigned,
}

pub const WHOLE_BOARD: [Entry; 4] = [
    Entry::Packet,
    Entry::FunctionResult,
    Entry::BoardStore,
    Entry::FreshBoard,
];
pub const NUMBERS: [Entry; 4] = [
    Entry::ReadSigned,
    Entry::ReadUnsigned,
    Entry::WriteSigned,
    Entry::WriteUnsigned,
];

pub fn refused(outcome: Outcome) -> Option<u8> {
    match outcome {
        Outcome::Refused(refusal) => Some(refusal.number()),
        _ => None,
    }
}

pub fn number_of<T>(result: Result<T, Refusal>) -> Option<u8> {
    result.err().map(Refusal::number)
}

fn call(lent: &mut Lent, entry: Entry, buffer: &mut [u8]) -> Option<u8> {
    let request = packet(lent.address.own, &message(VERSION, &[]));
    let (signed, unsigned) = (VariableNumber(0), VariableNumber(2));
    let variables = &lent.variables;
    match entry {
        Entry::Packet => refused(lent.packet(0, &request, buffer)),
        Entry::FunctionResult => refused(lent.function_result(0, true, Ran::Gave(&[1, 2]), buffer)),
        Entry::BoardStore => number_of(lent.board_store(0, &[1, 2, 3, 4])),
        Entry::FreshBoard => number_of(lent.fresh_board()),
        Entry::ReadSigned => number_of(read_signed(variables, signed, &[1, 2, 3, 4])),
        Entry::ReadUnsigned => number_of(read_unsigned(variables, unsigned, &[1, 2])),
        Entry::WriteSigned => number_of(write_signed(variables, signed, -3, &mut buffer[..4])),
        Entry::WriteUnsigned => number_of(write_unsigned(variables, unsigned, 3, &mut buffer[..2])),
    }
}

// The refusal of that call, if it is refused; a refusal must have changed no byte of anything lent.
pub fn refusal(lent: &Lent, entry: Entry) -> Option<u8> {
    let (mut after, mut buffer) = (lent.clone(), [FILLING; 4104]);
    let number = call(&mut after, entry, &mut buffer);
    if number.is_some() {
        assert_eq!(&after, lent, "{:?} changed what was lent", entry);
        assert_eq!(buffer, [FILLING; 4104], "{:?} wrote to its buffer", entry);
    }
    number
}
