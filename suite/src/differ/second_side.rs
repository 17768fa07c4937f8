//! The second node's side.
use super::calls::Entry;
use super::Ending;
use crate::second;
use crate::second_lent::SecondLent;

pub(super) fn call(second: &mut SecondLent, entry: &Entry, given: &[u8]) -> Ending {
    match *entry {
        Entry::Packet { busy, .. } => Ending::of_second(second.packet(busy, given)),
        Entry::Result { function, due, ran } => {
            Ending::of_second(second.function_result(function, due, ran, given))
        }
        Entry::Store { variable } => {
            Ending::of_second_result(second.board_store(variable, given), |()| Ending::Done)
        }
        Entry::Fresh => Ending::of_second_result(second.fresh_board(), |()| Ending::Done),
        Entry::ReadSigned { variable } => Ending::of_second_result(
            second::read_signed(&second.variables, variable, given),
            Ending::Signed,
        ),
        Entry::ReadUnsigned { variable } => Ending::of_second_result(
            second::read_unsigned(&second.variables, variable, given),
            Ending::Unsigned,
        ),
        Entry::WriteSigned { variable, number } => Ending::of_second_result(
            second::write_signed(&second.variables, variable, number, &mut second.buffer),
            |()| Ending::Done,
        ),
        Entry::WriteUnsigned { variable, number } => Ending::of_second_result(
            second::write_unsigned(&second.variables, variable, number, &mut second.buffer),
            |()| Ending::Done,
        ),
    }
}
