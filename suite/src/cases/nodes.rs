//! Carries out the calls of a case by the second node, and by the second asking side.
use super::asking;
use crate::second;
use crate::second_lent::SecondLent;
use crate::whatif::call::Call;
use crate::whatif::ended::{Came, Ended, FILLING};
use crate::whatif::Setting;
use cruachvel::{Learned, Refusal, MOST_PACKET};

/// A node with its asking side: it carries out a call on a board.
pub type Node = fn(&mut Setting, &Call) -> Came;

/// The second node and the second asking side.
pub fn second(setting: &mut Setting, call: &Call) -> Came {
    match call {
        Call::Ask(asked) => return asking::ask(asked),
        Call::Hear(asked, reply) => return asking::hear(setting, asked, reply),
        Call::Forget => {
            setting.known = Learned::new();
            return Came::Forgot;
        }
        _ => (),
    }
    let (lent, busy) = (&mut setting.lent, setting.busy);
    let mut lends = SecondLent::new(lent);
    lends.buffer = vec![FILLING; MOST_PACKET];
    let came = second_call(&mut lends, busy, call);
    lent.groups = lends.groups();
    lent.values = lends.values;
    lent.blocks = lends.blocks;
    lent.lengths = lends.lengths;
    lent.sums = lends.sums;
    came
}

fn second_call(lends: &mut SecondLent, busy: u64, call: &Call) -> Came {
    match call {
        Call::Packet(request) => {
            let outcome = lends.packet(busy, request);
            Came::sent(second_ended(outcome, request, &lends.buffer), &lends.buffer)
        }
        Call::Result {
            function,
            due,
            failed,
            bytes,
        } => {
            let ran = match bytes.first() {
                Some(error) if *failed => second::Ran::Failed(*error),
                _ => second::Ran::Well,
            };
            let outcome = lends.function_result(*function, *due, ran, bytes);
            Came::sent(second_ended(outcome, &[], &lends.buffer), &lends.buffer)
        }
        Call::Store(variable, bytes) => {
            let stored = lends.board_store(*variable, bytes);
            Came::of(stored.map_err(refusal), |()| Came::Done)
        }
        Call::Fresh => Came::of(lends.fresh_board().map_err(refusal), |()| Came::Fresh),
        Call::Read {
            signed,
            variable,
            bytes,
        } => second_read(lends, *signed, *variable, bytes),
        Call::Write {
            signed,
            variable,
            number,
            room,
        } => second_write(lends, *signed, *variable, *number, *room),
        Call::Ask(_) | Call::Hear(..) | Call::Forget => unreachable!("the asking side's"),
    }
}

fn second_read(lends: &SecondLent, signed: bool, variable: usize, bytes: &[u8]) -> Came {
    let read = if signed {
        second::read_signed(&lends.variables, variable, bytes).map(i128::from)
    } else {
        second::read_unsigned(&lends.variables, variable, bytes).map(i128::from)
    };
    Came::of(read.map_err(refusal), Came::Number)
}

fn second_write(
    lends: &SecondLent,
    signed: bool,
    variable: usize,
    number: i128,
    room: usize,
) -> Came {
    let mut buffer = vec![FILLING; room];
    let written = if signed {
        second::write_signed(&lends.variables, variable, number as i64, &mut buffer)
    } else {
        second::write_unsigned(&lends.variables, variable, number as u64, &mut buffer)
    };
    Came::of(written.map_err(refusal), |()| Came::Bytes(buffer.clone()))
}

pub(super) fn refusal(number: u8) -> Refusal {
    Refusal::of(number).unwrap_or_else(|| panic!("{} is no refusal", number))
}

fn second_ended(outcome: second::Outcome, request: &[u8], reply: &[u8]) -> Ended {
    match outcome {
        second::Outcome::Reply(length) => Ended::Reply(reply[..length].to_vec()),
        second::Outcome::Silent => Ended::Silence,
        second::Outcome::Run {
            function,
            input,
            due,
        } => Ended::Run {
            function,
            input: request[5..5 + input].to_vec(),
            due,
        },
        second::Outcome::Refused(number) => Ended::Refused(refusal(number)),
    }
}
