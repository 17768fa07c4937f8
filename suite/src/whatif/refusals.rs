//! The local refusals of 01 and of its change requests: their conditions, and why a call meets one.
use super::bytes::counted;
use super::call::{sign_name, Call};
use super::commands::Amended;
use super::packet::Packet;
use super::table;
use super::things::{function, is_signed, kind_name, missing, Setting};
use super::unfit;
use crate::lent::members;
use cruachvel::{Kind, Refusal, Variable};

/// The condition of a refusal in 01's words; of the last two, which 01 doesn't have, in those of a change request.
pub fn condition(refusal: Refusal) -> &'static str {
    match refusal {
        Refusal::BoardUnusable => "a record, store length or group breaks the table above",
        Refusal::BadAddress => "own address or multicast byte breaks it",
        Refusal::ReplyBufferShort => "under 4,104 bytes",
        Refusal::PacketLength => "under 2 or over 4,104",
        Refusal::Checksum => "the sum isn't 0",
        Refusal::NotForThisBoard => "destination is neither own nor a joined multicast",
        Refusal::NoSuchFunction => "when a function's result is handed in",
        Refusal::OutputLength => "successful result is not the declared length",
        Refusal::NoSuchVariable => "board store or reading",
        Refusal::WrongByteCount => "value or buffer is not the variable's size",
        Refusal::WrongKind => "plain, or signed asked of unsigned, or the reverse",
        Refusal::DoesNotFit => "number outside the variable's range",
        Refusal::ReplyUnfit => REPLY_UNFIT.words,
        Refusal::RequestUnwritable => REQUEST_UNWRITABLE.words,
    }
}

const LENGTHS_AND_SUMS: Amended = Amended {
    request: "2026-03",
    words: "A length out of range, lengths not one per block or sums not one per curve make the board unusable.",
};

const BAD_DESTINATION: Amended = Amended {
    request: "2026-04",
    words: "2 is a destination not 1 to 31 or 248 to 255",
};
const REPLY_UNFIT: Amended = Amended {
    request: "2026-04",
    words: "A reply fits if its request wasn't multicast, its destination is 0 and it is either E1 to E8 with no payload, or 01's answer to that request: of the size that the learned table gives (41: same curve and block, 1 to the block size of bytes; lists: whole records within 01's limits, 07 ascending).",
};
const REQUEST_UNWRITABLE: Amended = Amended {
    request: "2026-04",
    words:
        "14 request can't be written (ID over 255, block over 65,535 or payload over 4,099 bytes)",
};

/// The words of a change request by which a refusal is given to a call, if it isn't by 01's own.
pub fn amended(refusal: Refusal, call: &Call, setting: &Setting) -> Option<&'static Amended> {
    match (refusal, call) {
        (Refusal::BadAddress, Call::Ask(_) | Call::Hear(..)) => return Some(&BAD_DESTINATION),
        (Refusal::ReplyUnfit, _) => return Some(&REPLY_UNFIT),
        (Refusal::RequestUnwritable, _) => return Some(&REQUEST_UNWRITABLE),
        (_, Call::Ask(_) | Call::Hear(..)) => return None,
        _ => (),
    }
    let breaks = match (refusal, call) {
        (Refusal::BoardUnusable, Call::Fresh) => {
            table::breaks_amendment(&table::filled(&setting.lent))
        }
        (Refusal::BoardUnusable, _) => table::breaks_amendment(&setting.lent),
        _ => false,
    };
    breaks.then_some(&LENGTHS_AND_SUMS)
}

/// All words of change requests that give a refusal.
pub fn amendments() -> [&'static str; 4] {
    let all = [
        LENGTHS_AND_SUMS,
        BAD_DESTINATION,
        REPLY_UNFIT,
        REQUEST_UNWRITABLE,
    ];
    all.map(|amended| amended.words)
}

/// Why a refusal's condition holds for a packet, if it does. Other refusals are not looked at.
pub fn reason(refusal: Refusal, request: Packet, setting: &Setting) -> Option<String> {
    let address = setting.lent.address;
    match refusal {
        Refusal::BoardUnusable => table::broken(&setting.lent),
        Refusal::BadAddress if !(1..=31).contains(&address.own) => Some(format!(
            "the own address is {}; 1 to 31 are allowed",
            address.own
        )),
        Refusal::BadAddress if address.multicast & 1 == 0 => Some(format!(
            "the least bit of the multicast byte {:02X} is not set",
            address.multicast
        )),
        Refusal::PacketLength if !(2..=4104).contains(&request.0.len()) => Some(format!(
            "the packet has {}",
            counted(request.0.len(), "byte")
        )),
        Refusal::Checksum => match request.sum() {
            0 => None,
            sum => Some(format!("the sum is {:02X}", sum)),
        },
        Refusal::NotForThisBoard => not_for_this_board(request, setting),
        _ => None,
    }
}

fn not_for_this_board(request: Packet, setting: &Setting) -> Option<String> {
    let (destination, address) = (request.destination()?, setting.lent.address);
    let joined = members(address.multicast.reverse_bits().into()).map(|bit| 248 + bit);
    let joined: Vec<String> = joined.map(|address| address.to_string()).collect();
    let listens = joined.contains(&destination.to_string()) || destination == address.own;
    (!listens).then(|| {
        let joined = joined.join(" ");
        format!(
            "the destination is {}; the board is {} and has joined {}",
            destination, address.own, joined
        )
    })
}

/// The same for any call.
pub fn call_reason(refusal: Refusal, call: &Call, setting: &Setting) -> Option<String> {
    let lent = &setting.lent;
    match (refusal, call) {
        (_, Call::Packet(request)) => reason(refusal, Packet(request), setting),
        (_, Call::Ask(asked)) => unfit::ask_reason(refusal, asked),
        (_, Call::Hear(asked, reply)) => unfit::hear_reason(refusal, asked, Packet(reply), setting),
        (Refusal::BoardUnusable, Call::Result { .. } | Call::Store(..)) => table::broken(lent),
        (Refusal::BoardUnusable, Call::Fresh) => table::broken(&table::filled(lent)),
        (Refusal::BoardUnusable, _) => table::variables(&lent.variables),
        (Refusal::NoSuchFunction, Call::Result { function, .. }) => {
            missing("function", *function, lent.functions.len() / 2)
        }
        (
            Refusal::OutputLength,
            Call::Result {
                function,
                failed: false,
                bytes,
                ..
            },
        ) => output_length(*function, bytes, setting),
        _ => variable_reason(refusal, call, setting),
    }
}

// What a call that names a variable is refused for.
fn variable_reason(refusal: Refusal, call: &Call, setting: &Setting) -> Option<String> {
    let (number, bytes, signed) = match call {
        Call::Packet(_) | Call::Result { .. } | Call::Fresh => return None,
        Call::Ask(_) | Call::Hear(..) | Call::Forget => return None,
        Call::Store(variable, bytes) => (*variable, bytes.len(), None),
        Call::Read {
            variable,
            bytes,
            signed,
        } => (*variable, bytes.len(), Some(*signed)),
        Call::Write {
            variable,
            room,
            signed,
            ..
        } => (*variable, *room, Some(*signed)),
    };
    let variables = &setting.lent.variables;
    match (refusal, call) {
        (Refusal::NoSuchVariable, _) => missing("variable", number, variables.len()),
        (Refusal::WrongKind, _) => wrong_kind(number, signed?, variables.get(number)?),
        (Refusal::WrongByteCount, _) => byte_count(number, bytes, variables.get(number)?),
        (Refusal::DoesNotFit, Call::Write { number: wanted, .. }) => {
            does_not_fit(number, *wanted, variables.get(number)?)
        }
        _ => None,
    }
}

fn output_length(number: usize, bytes: &[u8], setting: &Setting) -> Option<String> {
    let (_, output) = function(&setting.lent, number)?;
    let given = counted(bytes.len(), "byte");
    (bytes.len() != output).then(|| format!("{}; function {} gives {}", given, number, output))
}

fn byte_count(variable: usize, bytes: usize, record: &Variable) -> Option<String> {
    let given = counted(bytes, "byte");
    let text = || format!("{}; variable {} has {}", given, variable, record.size);
    (bytes != usize::from(record.size)).then(text)
}

fn wrong_kind(variable: usize, signed: bool, record: &Variable) -> Option<String> {
    let wrong = record.kind == Kind::Plain.number() || is_signed(record) != signed;
    wrong.then(|| {
        format!(
            "variable {} is {}, and the number asked for is {}",
            variable,
            kind_name(record.kind),
            sign_name(signed)
        )
    })
}

fn does_not_fit(variable: usize, number: i128, record: &Variable) -> Option<String> {
    // A number has at most eight bytes; no record that is asked here has more.
    let all = 1i128 << (8 * u32::from(record.size.min(8)));
    let first = if is_signed(record) { -all / 2 } else { 0 };
    let last = first + all - 1;
    (!(first..=last).contains(&number)).then(|| {
        format!(
            "variable {} holds {} to {}, and not {}",
            variable, first, last, number
        )
    })
}
