//! Why the asking side refuses: a destination, a request that can't be written, a table that is not known, or a reply that doesn't fit.
//!
//! That it refuses, and with which number, the proved side says. Here it is worded.
use super::asked::Asked;
use super::bytes::{counted, grouped, hex};
use super::commands::{Field, Rest};
use super::packet::Packet;
use super::steps::{malformed, not_ascending};
use super::table;
use super::things::{curve, function, group, missing_of, Setting};
use crate::lent::Lent;
use cruachvel::{Kind, Record, Refusal, Variable, MOST_VARIABLES, SUM_SIZE};

// What the longest packet leaves for a payload.
const MOST_PAYLOAD: usize = 4099;

/// Why a request is refused so, if it is.
pub fn ask_reason(refusal: Refusal, asked: &Asked) -> Option<String> {
    match refusal {
        Refusal::BadAddress => bad_destination(asked),
        Refusal::RequestUnwritable => unwritable(asked),
        _ => None,
    }
}

/// Why a reply to a request is refused so, if it is. For 13 the others must not apply.
pub fn hear_reason(
    refusal: Refusal,
    asked: &Asked,
    reply: Packet,
    setting: &Setting,
) -> Option<String> {
    match refusal {
        Refusal::BoardUnusable if asked.is_sized() && setting.known.variables == 0 => {
            Some("no variables of the node are known yet; list-variables, 02, asks for them".into())
        }
        Refusal::BadAddress => bad_destination(asked),
        Refusal::PacketLength if !(2..=4104).contains(&reply.0.len()) => {
            Some(format!("the reply has {}", counted(reply.0.len(), "byte")))
        }
        Refusal::Checksum if reply.sum() != 0 => Some(format!("the sum is {:02X}", reply.sum())),
        Refusal::ReplyUnfit => unfit(asked, reply, setting),
        _ => None,
    }
}

fn bad_destination(asked: &Asked) -> Option<String> {
    let destination = asked.destination();
    let is_good = matches!(destination, 1..=31 | 248..=255);
    (!is_good).then(|| {
        format!(
            "the destination is {}; 1 to 31 and 248 to 255 are allowed",
            destination
        )
    })
}

fn unwritable(asked: &Asked) -> Option<String> {
    let command = asked.command();
    let most = |field: Field| match field {
        Field::Block => 65_535,
        _ => 255,
    };
    let named = command.front.iter().filter_map(|field| {
        let number = asked.number(*field).filter(|n| *n > most(*field))?;
        Some(format!(
            "{} {}; at most {} can be written",
            field.name(),
            grouped(number),
            grouped(most(*field))
        ))
    });
    let front: usize = command.front.iter().map(|field| field.width()).sum();
    let payload = front + asked.bytes().len();
    let long = || {
        format!(
            "the payload has {}; at most 4,099 can be written",
            counted(payload, "byte")
        )
    };
    let carries = command.rest != Rest::Nothing;
    named
        .into_iter()
        .next()
        .or_else(|| (carries && payload > MOST_PAYLOAD).then(long))
}

/// What a reply to any request has to be, as far as it is not: its destination, its form, an error's payload.
fn form(reply: Packet) -> Option<String> {
    match reply.destination() {
        None | Some(0) => (),
        Some(other) => return Some(destination_text(other)),
    }
    let carries = || format!("{} of payload", counted(reply.payload().len(), "byte"));
    malformed(reply).or_else(|| match reply.code()? {
        code @ 0xE0..=0xE8 if !reply.payload().is_empty() => {
            Some(format!("{:02X} has {}, and takes none", code, carries()))
        }
        _ => None,
    })
}

/// What is said of a reply's destination that is not 0.
pub fn destination_text(destination: u8) -> String {
    format!(
        "the destination is {}; replies go to 0, the master",
        destination
    )
}

fn unfit(asked: &Asked, reply: Packet, setting: &Setting) -> Option<String> {
    if asked.is_multicast() {
        return Some(format!(
            "the request went to multicast address {}, which is never answered",
            asked.destination()
        ));
    }
    let code = reply.code();
    let is_error = matches!(code, Some(0xE1..=0xE8));
    form(reply).or_else(|| match code {
        _ if is_error => None,
        Some(code) if !asked.command().answers().contains(&code) => Some(other_code(asked, code)),
        _ => payload(asked, reply, setting),
    })
}

fn other_code(asked: &Asked, code: u8) -> String {
    let answers = asked.command().answers();
    let answers: Vec<String> = answers.iter().map(|code| format!("{:02X}", code)).collect();
    format!(
        "{:02X} is no answer to {:02X}; {} is, or one of E1 to E8",
        code,
        asked.command().code,
        answers.join(" or ")
    )
}

// What is wrong with the payload of a reply that has the right code.
fn payload(asked: &Asked, reply: Packet, setting: &Setting) -> Option<String> {
    let (code, payload) = (reply.code()?, reply.payload());
    match code {
        0x01 if payload != [2, 20, 0] => {
            Some(format!("the version is {}, and not 02 14 00", hex(payload)))
        }
        0x03 => variables(payload),
        0x05 => groups(payload),
        0x07 => members(asked.number(Field::Group)?, payload),
        0x09 => curves(payload),
        0x0D => functions(payload),
        _ if asked.is_sized() => sized(asked, code, payload, &setting.seen()),
        _ => None,
    }
}

fn variables(payload: &[u8]) -> Option<String> {
    let record = |byte: &u8| Variable {
        writable: byte >> 7,
        size: byte & 0x7F,
        kind: Kind::Plain.number(),
    };
    table::variables(&payload.iter().map(record).collect::<Vec<Variable>>())
}

// A group may be without variables if it is 1 or 2.
fn least(group: usize) -> usize {
    usize::from(!matches!(group, 1 | 2))
}

fn groups(payload: &[u8]) -> Option<String> {
    if !(3..=8).contains(&payload.len()) {
        let count = counted(payload.len(), "group");
        return Some(format!("{}; 3 to 8 are allowed", count));
    }
    let numbered = payload.iter().enumerate();
    let mut wrong = numbered.filter_map(|(group, byte)| {
        let (least, count) = (least(group), usize::from(byte & 0x7F));
        let text = || {
            let has = counted(count, "variable");
            format!("group {} has {}; {} to 64 are allowed", group, has, least)
        };
        (!(least..=MOST_VARIABLES).contains(&count)).then(text)
    });
    wrong.next()
}

fn members(group: usize, payload: &[u8]) -> Option<String> {
    if payload.len() < least(group) {
        return Some(format!("group {} has no variables", group));
    }
    let over = payload
        .iter()
        .find(|id| usize::from(**id) >= MOST_VARIABLES);
    let over = over.map(|id| format!("variable {}; 0 to 63 are allowed", id));
    not_ascending(payload).or(over)
}

fn curves(payload: &[u8]) -> Option<String> {
    let records = payload.chunks_exact(cruachvel::Curve::BYTES);
    let left = records.remainder().len();
    if left != 0 {
        return Some(format!("the last record has {} of 5 bytes", left));
    }
    let records: Vec<cruachvel::Curve> = records.map(cruachvel::Curve::of).collect();
    table::curves(cruachvel::Curve::numbers(&records))
}

fn functions(payload: &[u8]) -> Option<String> {
    let sides = payload.iter().flat_map(|byte| [byte >> 4, byte & 0x0F]);
    table::functions(&sides.collect::<Vec<u8>>())
}

// An answer whose size the learned table gives.
fn sized(asked: &Asked, code: u8, payload: &[u8], seen: &Lent) -> Option<String> {
    let missing = |field: Field, count: usize| {
        missing_of("learned table", field.name(), asked.number(field)?, count)
    };
    let has = counted(payload.len(), "byte");
    let differs = |name: &str, number: usize, right: usize| {
        let text = || format!("{}, and {} {} has {}", has, name, number, grouped(right));
        (payload.len() != right).then(text)
    };
    match code {
        0x11 => {
            let read = asked.number(Field::VariableRead);
            let field = read.map_or(Field::Variable, |_| Field::VariableRead);
            let number = asked.number(field)?;
            missing(field, seen.variables.len()).or_else(|| {
                let size = seen.variables.get(number)?.size;
                differs("variable", number, size.into())
            })
        }
        0x13 => {
            let number = asked.number(Field::Group)?;
            missing(Field::Group, seen.group_sets(&seen.groups).len()).or_else(|| {
                let right = seen.set_bytes(group(seen, number)?.set);
                differs("group", number, right)
            })
        }
        0x0B => missing(Field::Curve, seen.curves.len() / 3).or_else(|| {
            let text = || format!("{}, and a sum has 16", has);
            (payload.len() != SUM_SIZE).then(text)
        }),
        0x41 => {
            missing(Field::Curve, seen.curves.len() / 3).or_else(|| block(asked, payload, seen))
        }
        0x51 => missing(Field::Function, seen.functions.len() / 2).or_else(|| {
            let number = asked.number(Field::Function)?;
            let (_, output) = function(seen, number)?;
            let text = || format!("{}, and function {} gives {}", has, number, output);
            (payload.len() != output).then(text)
        }),
        0x53 => missing(Field::Function, seen.functions.len() / 2).or_else(|| {
            let text = || format!("{}, and a function's error has 1", has);
            (payload.len() != 1).then(text)
        }),
        _ => None,
    }
}

// "same curve and block, 1 to the block size of bytes"
fn block(asked: &Asked, payload: &[u8], seen: &Lent) -> Option<String> {
    let (number, block) = (asked.number(Field::Curve)?, asked.number(Field::Block)?);
    let (of_curve, of_block, bytes) = match payload {
        [curve, high, low, bytes @ ..] => {
            let block = usize::from(u16::from_be_bytes([*high, *low]));
            (usize::from(*curve), block, bytes.len())
        }
        _ => {
            let has = counted(payload.len(), "byte");
            return Some(format!("{}, and curve and block alone have 3", has));
        }
    };
    let size = curve(seen, number)?.size;
    if (of_curve, of_block) != (number, block) {
        let came = format!("it is block {} of curve {}", of_block, of_curve);
        return Some(format!(
            "{}, and block {} of curve {} was asked for",
            came, block, number
        ));
    }
    let text = || {
        let has = counted(bytes, "byte");
        format!("{}, and a block of curve {} has 1 to {}", has, number, size)
    };
    (!(1..=size).contains(&bytes)).then(text)
}
