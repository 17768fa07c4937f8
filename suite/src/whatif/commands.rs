//! 01's table of commands, with those that a change request adds: what each is called, what its payload is made of, and what it is
//! answered with.

/// What stands at the front of a payload. A block number has two bytes, all else one.
#[derive(Clone, Copy, Debug, PartialEq, Eq)]
pub enum Field {
    Variable,
    VariableRead,
    Group,
    Operation,
    Curve,
    Block,
    Function,
}

impl Field {
    pub fn name(self) -> &'static str {
        match self {
            Field::Variable | Field::VariableRead => "variable",
            Field::Group => "group",
            Field::Operation => "operation",
            Field::Curve => "curve",
            Field::Block => "block",
            Field::Function => "function",
        }
    }

    pub fn width(self) -> usize {
        if self == Field::Block {
            2
        } else {
            1
        }
    }
}

/// What follows the front.
#[derive(Clone, Copy, Debug, PartialEq, Eq)]
pub enum Rest {
    Nothing,
    Value,
    Mask,
    Members,
    Data,
    Input,
}

/// Words of a change request, which amends 01.
#[derive(Clone, Copy, Debug, PartialEq, Eq)]
pub struct Amended {
    pub request: &'static str,
    pub words: &'static str,
}

impl Amended {
    pub fn text(&self) -> String {
        format!("by {} \"{}\"", self.request, self.words)
    }
}

/// A row of 01's table: request, payload and answer in 01's words, with 001's name of the command, and the word by which a gateway is told
/// to ask it. In place of a row, a command may have the words of the change request that adds it, and beside either those of one that
/// amends it.
#[derive(Debug, PartialEq, Eq)]
pub struct Command {
    pub code: u8,
    pub word: &'static str,
    pub name: &'static str,
    pub payload: &'static str,
    pub answer: &'static str,
    pub front: &'static [Field],
    pub rest: Rest,
    pub added: Option<Amended>,
    pub amended: Option<Amended>,
}

impl Command {
    pub fn of(code: u8) -> Option<&'static Command> {
        COMMANDS.iter().find(|command| command.code == code)
    }

    /// The codes of its answers, beside those of errors.
    pub fn answers(&self) -> Vec<u8> {
        let start = self.answer.get(..2).unwrap_or_default();
        match u8::from_str_radix(start, 16) {
            Ok(code) => vec![code],
            Err(_) => vec![0x51, 0x53],
        }
    }

    /// The least length of the payload: its front, and for 30 one variable.
    pub fn least(&self) -> usize {
        let front: usize = self.front.iter().map(|field| field.width()).sum();
        front + usize::from(self.rest == Rest::Members)
    }

    /// The row as it stands in 01, or the words of the change request that adds the command.
    pub fn quote(&self) -> String {
        match &self.added {
            Some(added) => added.words.to_string(),
            None => format!("| {:02X} | {} | {} |", self.code, self.payload, self.answer),
        }
    }

    /// The same, with where it stands, and what amends it.
    pub fn text(&self) -> String {
        let text = match &self.added {
            Some(added) => added.text(),
            None => format!("the command's row: {}", self.quote()),
        };
        match &self.amended {
            Some(amended) => format!("{}, {}", text, amended.text()),
            None => text,
        }
    }
}

const fn row(
    code: u8,
    (word, name): (&'static str, &'static str),
    (payload, answer): (&'static str, &'static str),
    front: &'static [Field],
    rest: Rest,
) -> Command {
    Command {
        code,
        word,
        name,
        payload,
        answer,
        front,
        rest,
        added: None,
        amended: None,
    }
}

// A command that 2026-02 adds: its payload is a curve.
const fn of_sums(
    code: u8,
    names: (&'static str, &'static str),
    answer: &'static str,
    words: &'static str,
) -> Command {
    Command {
        added: Some(Amended {
            request: "2026-02",
            words,
        }),
        ..row(code, names, ("curve", answer), &[Curve], Nothing)
    }
}

// A command that goes by the lengths of blocks.
const fn by_lengths(command: Command) -> Command {
    Command {
        amended: Some(Amended {
            request: "2026-03",
            words: "Each block gets a length of its own, 1 to the block size, full on a fresh board. A write sets it, a read returns that many bytes, and the checksum covers only those, in block order.",
        }),
        ..command
    }
}

use Field::{Block, Curve, Function, Group, Operation, Variable, VariableRead};
use Rest::{Data, Input, Mask, Members, Nothing, Value};

#[rustfmt::skip]
pub const COMMANDS: [Command; 20] = [
    row(0x00, ("version", "query the protocol version"), ("none", "01: 02 14 00"), &[], Nothing),
    row(0x02, ("list-variables", "query the list of variables"), ("none", "03: a byte per variable, top bit 1 if writable, low seven the size"), &[], Nothing),
    row(0x04, ("list-groups", "query the list of groups"), ("none", "05: a byte per group, top bit 1 if writable, low seven the member count"), &[], Nothing),
    row(0x06, ("show-group", "query a group"), ("group", "07: its variables, ascending"), &[Group], Nothing),
    row(0x08, ("list-curves", "query the list of curves"), ("none", "09: per curve type (0, 1), block size in two bytes, blocks in two (65,536 as 0)"), &[], Nothing),
    of_sums(0x0A, ("sum", "query the checksum of a curve"), "0B with 16 bytes", "0A (payload: curve; answer 0B with 16 bytes)"),
    row(0x0C, ("list-functions", "query the list of functions"), ("none", "0D: per function, input count in the high four bits, output in the low four"), &[], Nothing),
    row(0x10, ("read", "read a variable"), ("variable", "11: value"), &[Variable], Nothing),
    row(0x12, ("group", "read a group"), ("group", "13: members' values, ascending"), &[Group], Nothing),
    row(0x20, ("write", "write a variable"), ("variable, value", "E0"), &[Variable], Value),
    row(0x22, ("write-group", "write a group"), ("group, members' values", "E0"), &[Group], Value),
    row(0x24, ("mask", "binary operation on a variable"), ("variable, operation, mask", "E0"), &[Variable, Operation], Mask),
    row(0x26, ("mask-group", "binary operation on a group"), ("group, operation, members' masks", "E0"), &[Group, Operation], Mask),
    row(0x28, ("write-read", "write and read variables"), ("variable written, variable read, value", "11: the second's value, after the write"), &[Variable, VariableRead], Value),
    row(0x30, ("make-group", "create a group"), ("variables of a new group", "E0"), &[], Members),
    row(0x32, ("remove-groups", "remove all groups"), ("none", "E0; groups 3 to 7 are gone, their numbers free again"), &[], Nothing),
    by_lengths(row(0x40, ("block", "request a curve block"), ("curve, block in two bytes", "41: curve, block, the block's bytes"), &[Curve, Block], Nothing)),
    by_lengths(row(0x41, ("write-block", "curve block"), ("curve, block in two bytes, data", "E0"), &[Curve, Block], Data)),
    by_lengths(of_sums(0x42, ("renew", "recalculate the checksum of a curve"), "E0", "42 (payload: curve; answer E0)")),
    row(0x50, ("run", "execute a function"), ("function, input", "the function is to be run"), &[Function], Input),
];

/// What a reply's code is called.
pub fn reply_name(code: u8) -> &'static str {
    known_reply(code).unwrap_or("a code that neither 01 nor a change request has")
}

/// The same, for those that 01 has.
pub fn known_reply(code: u8) -> Option<&'static str> {
    let name = match code {
        0x01 => "protocol version",
        0x03 => "list of variables",
        0x05 => "list of groups",
        0x07 => "group",
        0x09 => "list of curves",
        0x0B => "checksum of a curve",
        0x0D => "list of functions",
        0x11 => "value of a variable",
        0x13 => "values of a group",
        0x41 => "curve block",
        0x51 => "output of a function",
        0x53 => "error of a function",
        0xE0 => "OK",
        0xE1 => "malformed message",
        0xE2 => "operation not supported",
        0xE3 => "invalid ID",
        0xE4 => "invalid value",
        0xE5 => "invalid payload size",
        0xE6 => "read-only",
        0xE7 => "insufficient memory",
        0xE8 => "resource busy",
        _ => return None,
    };
    Some(name)
}

/// What an operation of 24 and 26 is called, if it is one.
pub fn operation_name(code: u8) -> Option<&'static str> {
    let name = match code {
        0x53 => "set: turns on the mask's bits",
        0x4F => "or: turns on the mask's bits",
        0x43 => "clear: turns off the mask's bits",
        0x54 => "toggle: inverts the mask's bits",
        0x58 => "xor: inverts the mask's bits",
        0x41 => "and: keeps only the mask's bits",
        _ => return None,
    };
    Some(name)
}
