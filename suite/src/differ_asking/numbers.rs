//! Bytes as numbers and numbers as bytes, on both sides and by the node's own readings.
use super::proved_side::Proved;
use super::tables::Table;
use crate::differ::calls::{some_length, some_number, some_value};
use crate::random::Random;
use crate::second_asking::{self, Learned};
use cruachvel::{Refusal, Variable, VariableNumber};

const WRONG_BYTE_COUNT: u8 = 10;
const DOES_NOT_FIT: u8 = 12;

#[derive(Clone, Copy, Debug)]
enum Entry {
    ReadSigned,
    ReadUnsigned,
    WriteSigned(i64),
    WriteUnsigned(u64),
}

/// A call: the kinds that the gateway supplies, and the bytes that are read, or that stand in the buffer before a number is written to it.
#[derive(Clone, Debug)]
pub(super) struct Call {
    entry: Entry,
    kinds: Vec<u8>,
    variable: usize,
    bytes: Vec<u8>,
}

/// What comes of it: the refusal or 0, the number that was read or 0, and the bytes then.
#[derive(Clone, Debug, PartialEq, Eq)]
pub(super) struct Told {
    pub(super) refusal: u8,
    pub(super) number: u64,
    pub(super) bytes: Vec<u8>,
}

/// A call for a table, with the kinds that the board has or with such as its sizes allow.
pub(super) fn draw(random: &mut Random, known: &Learned, board: Option<&[Variable]>) -> Call {
    let kinds = match board {
        Some(variables) => variables.iter().map(|variable| variable.kind).collect(),
        None => drawn_kinds(random, known),
    };
    let count = kinds.len().min(known.variables.len());
    let mut variable = some_number(random, count);
    if kinds.get(variable) == Some(&0) {
        // Once more, since of plain bytes there is no more to be said.
        variable = some_number(random, count);
    }
    let size = known.variables.get(variable).map_or(1, |record| record.1);
    let kind = kinds.get(variable).copied().unwrap_or(0);
    let length = some_length(random, size.into());
    let number = some_value(random, size);
    let entry = match (kind >= 3) != random.once_in(8) {
        true => random.choose(&[Entry::ReadSigned, Entry::WriteSigned(number as i64)]),
        false => random.choose(&[Entry::ReadUnsigned, Entry::WriteUnsigned(number)]),
    };
    Call {
        entry,
        kinds,
        variable,
        bytes: random.bytes(length),
    }
}

fn drawn_kinds(random: &mut Random, known: &Learned) -> Vec<u8> {
    let kind = |&(_, size): &(bool, u8)| match size {
        1 | 2 | 4 | 8 => random.below(5) as u8,
        _ => 0,
    };
    let mut kinds: Vec<u8> = known.variables.iter().map(kind).collect();
    let place = random.below(kinds.len());
    match (random.below(16), kinds.get_mut(place)) {
        (0, Some(kind)) => *kind = random.choose(&[1, 3, 5, 128, 255]),
        (1, _) => kinds.truncate(place),
        (2, _) => kinds.extend([0, 3, 9]),
        _ => (),
    }
    kinds
}

/// The proved side's.
pub(super) fn proved(proved: &mut Proved, table: &Table, call: &Call) -> Told {
    proved.lend(&table.raw, &call.kinds);
    proved.buffer.put(proved.edge, &call.bytes);
    let variable = call.variable;
    let (refusal, number) = match call.entry {
        Entry::ReadSigned => {
            let told = proved.signed(variable, &call.bytes);
            (told.refusal as u8, told.number as u64)
        }
        Entry::ReadUnsigned => {
            let told = proved.unsigned(variable, &call.bytes);
            (told.refusal as u8, told.number)
        }
        Entry::WriteSigned(number) => (proved.write_signed(variable, number), 0),
        Entry::WriteUnsigned(number) => (proved.write_unsigned(variable, number), 0),
    };
    Told {
        refusal,
        number,
        bytes: proved.buffer.to_vec(),
    }
}

/// The second side's. It lends no buffer for a number's bytes, so that a wrong length of one is seen here.
pub(super) fn second(known: &Learned, call: &Call) -> Told {
    let (kinds, variable, bytes) = (&call.kinds, call.variable, &call.bytes);
    let written = |written: Result<Vec<u8>, u8>| match written {
        Ok(_) | Err(DOES_NOT_FIT) if call.length_is_wrong(known) => Err(WRONG_BYTE_COUNT),
        other => other.map(|bytes| (0, bytes)),
    };
    let read = |number: u64| (number, bytes.clone());
    let ended = match call.entry {
        Entry::ReadSigned => {
            second_asking::signed(known, kinds, variable, bytes).map(|number| read(number as u64))
        }
        Entry::ReadUnsigned => second_asking::unsigned(known, kinds, variable, bytes).map(read),
        Entry::WriteSigned(number) => {
            written(second_asking::write_signed(known, kinds, variable, number))
        }
        Entry::WriteUnsigned(number) => written(second_asking::write_unsigned(
            known, kinds, variable, number,
        )),
    };
    told(call, ended)
}

/// The node's own readings of a board with these records.
pub(super) fn node(variables: &[Variable], call: &Call) -> Told {
    let variable = VariableNumber(call.variable);
    let mut buffer = call.bytes.clone();
    let ended = match call.entry {
        Entry::ReadSigned => {
            let read = cruachvel::read_signed(variables, variable, &call.bytes);
            read.map(|number| number as u64)
        }
        Entry::ReadUnsigned => cruachvel::read_unsigned(variables, variable, &call.bytes),
        Entry::WriteSigned(number) => {
            cruachvel::write_signed(variables, variable, number, &mut buffer).map(|()| 0)
        }
        Entry::WriteUnsigned(number) => {
            cruachvel::write_unsigned(variables, variable, number, &mut buffer).map(|()| 0)
        }
    };
    let ended = ended.map_err(Refusal::number);
    told(call, ended.map(|number| (number, buffer)))
}

fn told(call: &Call, ended: Result<(u64, Vec<u8>), u8>) -> Told {
    match ended {
        Ok((number, bytes)) => Told {
            refusal: 0,
            number,
            bytes,
        },
        Err(refusal) => Told {
            refusal,
            number: 0,
            bytes: call.bytes.clone(),
        },
    }
}

impl Call {
    fn length_is_wrong(&self, known: &Learned) -> bool {
        let record = known.variables.get(self.variable);
        record.map_or(false, |record| usize::from(record.1) != self.bytes.len())
    }
}
