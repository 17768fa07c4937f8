//! A request decoded, or another call: each field with what it means on this board.
use super::asked::Asked;
use super::bytes::{counted, grouped};
use super::call::{due_name, sign_name, Call};
use super::commands::{operation_name, Command, Field, Rest};
use super::ended::due_text;
use super::packet::Packet;
use super::reply;
use super::sheet::Part;
use super::things::{
    block_text, function, function_text, group, group_text, kind_name, lent_curve_text, listed,
    number, variable_text, Setting,
};
use crate::lent::{members, Lent};
use cruachvel::Address;

/// The parts of a call.
pub fn call_parts(call: &Call, setting: &Setting) -> Vec<Part> {
    let lent = &setting.lent;
    match call {
        Call::Packet(request) => parts(Packet(request), setting),
        Call::Store(variable, bytes) => board_parts(*variable, bytes, lent),
        Call::Read {
            signed,
            variable,
            bytes,
        } => {
            let mut parts = board_parts(*variable, bytes, lent);
            parts.push(Part::said("asked for", sign_name(*signed), "a number"));
            parts
        }
        Call::Write {
            signed,
            variable,
            number,
            room,
        } => vec![
            named_part("variable", Field::Variable, *variable, lent),
            Part::said("number", number.to_string(), sign_name(*signed)),
            Part::said("buffer", room.to_string(), counted(*room, "byte")),
        ],
        Call::Result {
            function,
            due,
            failed,
            bytes,
        } => vec![
            named_part("function", Field::Function, *function, lent),
            Part::said("answer", due_name(*due), due_text(*due)),
            ran_part(*failed, bytes),
        ],
        Call::Fresh => curve_parts(lent),
        Call::Ask(asked) => asked_parts(asked, setting),
        Call::Hear(asked, bytes) => {
            let reply = Packet(bytes);
            let heard = reply::heard_in(reply, asked.clone(), setting);
            reply::parts(reply, heard.as_ref(), setting)
        }
        Call::Forget => Vec::new(),
    }
}

// What a gateway is told to ask.
fn asked_parts(asked: &Asked, setting: &Setting) -> Vec<Part> {
    let (lent, command) = (&setting.lent, asked.command());
    let destination = asked.destination();
    let meaning = destination_text(destination, lent.address);
    let code = format!("{:02X}", command.code);
    let mut parts = vec![
        Part::said("destination", destination.to_string(), meaning),
        Part::said("command", code, command.name),
    ];
    let curve = asked.number(Field::Curve);
    for field in command.front {
        let number = asked.number(*field).unwrap_or_default();
        let meaning = match (field, curve) {
            (Field::Block, Some(curve)) => block_text(lent, curve, number),
            _ => field_text(*field, number, lent),
        };
        let word = match field {
            Field::Operation => format!("{:02X}", number),
            _ => number.to_string(),
        };
        parts.push(Part::said(field.name(), word, meaning));
    }
    let carried = counted(asked.bytes().len(), "byte");
    parts.extend(match command.rest {
        Rest::Nothing => None,
        Rest::Members => Some(numbers_part(asked.bytes())),
        _ => Some(Part::new(rest_name(command.rest), asked.bytes(), carried)),
    });
    parts
}

fn ran_part(failed: bool, bytes: &[u8]) -> Part {
    if failed {
        Part::new("error", bytes, "the function failed")
    } else {
        Part::new("output", bytes, counted(bytes.len(), "byte"))
    }
}

fn curve_parts(lent: &Lent) -> Vec<Part> {
    let part = |number| named_part("curve", Field::Curve, number, lent);
    (0..lent.curves.len() / 3).map(part).collect()
}

fn named_part(name: &str, field: Field, number: usize, lent: &Lent) -> Part {
    Part::said(name, number.to_string(), field_text(field, number, lent))
}

// A variable that the board names, and bytes for it.
fn board_parts(variable: usize, bytes: &[u8], lent: &Lent) -> Vec<Part> {
    let mut parts = vec![named_part("variable", Field::Variable, variable, lent)];
    parts.extend(match lent.variables.get(variable) {
        Some(_) if variable < 64 => values_parts("value", 1 << variable, bytes, lent),
        _ => vec![Part::new("value", bytes, counted(bytes.len(), "byte"))],
    });
    parts
}

/// The parts of a request, as far as its bytes go.
pub fn parts(request: Packet, setting: &Setting) -> Vec<Part> {
    let mut parts = Vec::new();
    if let Some(destination) = request.destination() {
        let meaning = destination_text(destination, setting.lent.address);
        parts.push(Part::new("destination", &[destination], meaning));
    }
    if let Some(code) = request.code() {
        let name = request.command().map_or("no command", |known| known.name);
        parts.push(Part::new("command", &[code], name));
        parts.extend(size_part(request));
    }
    parts.extend(payload_parts(request, setting));
    parts.extend(checksum_part(request));
    parts
}

fn destination_text(destination: u8, address: Address) -> String {
    let joined = || address.multicast >> (255 - destination) & 1 == 1;
    match destination {
        own if own == address.own => "this board".to_string(),
        248..=255 if joined() => format!("multicast {}, joined", destination),
        248..=255 => format!("multicast {}, not joined", destination),
        other => format!("address {}, not this board", other),
    }
}

/// SIZE of a request or a reply, held against the bytes that follow it.
pub fn size_part(packet: Packet) -> Option<Part> {
    let follow = counted(packet.payload().len(), "byte");
    let meaning = match packet.size() {
        Some(_) if packet.is_whole() => format!("{} of payload", follow),
        Some(size) => format!("{}, but the payload has {}", grouped(size), follow),
        None => "cut off".to_string(),
    };
    let bytes = packet.size_bytes();
    (!bytes.is_empty()).then(|| Part::new("SIZE", bytes, meaning))
}

/// The checksum of a request or a reply.
pub fn checksum_part(packet: Packet) -> Option<Part> {
    let meaning = match packet.sum() {
        0 => "the sum is 0".to_string(),
        sum => format!("the sum is {:02X}", sum),
    };
    Some(Part::new("checksum", &[packet.checksum()?], meaning))
}

fn payload_parts(request: Packet, setting: &Setting) -> Vec<Part> {
    let command = match request.command() {
        Some(command) => command,
        None if request.payload().is_empty() => return Vec::new(),
        None => return vec![Part::new("payload", request.payload(), "")],
    };
    let (fields, rest) = request.fields(command);
    let mut parts: Vec<Part> = fields
        .into_iter()
        .map(|(field, bytes)| field_part(field, bytes, request, &setting.lent))
        .collect();
    parts.extend(rest_parts(command, rest, request, &setting.lent));
    parts
}

fn field_part(field: Field, bytes: &[u8], request: Packet, lent: &Lent) -> Part {
    let meaning = match (request.field(field), request.field(Field::Curve)) {
        (Some(block), Some(curve)) if field == Field::Block => block_text(lent, curve, block),
        (Some(value), _) => field_text(field, value, lent),
        (None, _) if bytes.is_empty() => "missing".to_string(),
        (None, _) => "cut off".to_string(),
    };
    Part::new(field.name(), bytes, meaning)
}

/// A number that a payload has in place of a field, in words.
pub fn field_text(field: Field, value: usize, lent: &Lent) -> String {
    let (name, text) = match field {
        Field::Variable => ("variable", lent.variables.get(value).map(variable_text)),
        Field::VariableRead => {
            let text = lent.variables.get(value).map(variable_text);
            ("to be read: variable", text)
        }
        Field::Group => ("group", group(lent, value).map(group_text)),
        Field::Curve => ("curve", lent_curve_text(lent, value)),
        Field::Function => ("function", function(lent, value).map(function_text)),
        Field::Block => return format!("block {}", value),
        Field::Operation => {
            let name = operation_name(value as u8);
            return name.unwrap_or("no operation").to_string();
        }
    };
    match text {
        Some(text) => format!("{} {}: {}", name, value, text),
        None => format!("{} {}: there is none", name, value),
    }
}

fn rest_parts(command: &Command, rest: &[u8], request: Packet, lent: &Lent) -> Vec<Part> {
    match command.rest {
        Rest::Nothing if rest.is_empty() => return Vec::new(),
        Rest::Members => return vec![numbers_part(rest)],
        _ => (),
    }
    let word = rest_name(command.rest);
    match written(request, lent) {
        Some(set) if matches!(command.rest, Rest::Value | Rest::Mask) => {
            values_parts(word, set, rest, lent)
        }
        _ => vec![Part::new(word, rest, counted(rest.len(), "byte"))],
    }
}

// What follows the front is called so.
fn rest_name(rest: Rest) -> &'static str {
    match rest {
        Rest::Nothing => "too much",
        Rest::Value => "value",
        Rest::Mask => "mask",
        Rest::Members => "variables",
        Rest::Data => "data",
        Rest::Input => "input",
    }
}

/// Variables by their numbers.
pub fn numbers_part(numbers: &[u8]) -> Part {
    let meaning = listed(numbers.iter().map(|number| usize::from(*number)));
    Part::new("variables", numbers, meaning)
}

// The variables that a request is to write.
fn written(request: Packet, lent: &Lent) -> Option<u64> {
    match request.field(Field::Group) {
        Some(number) => group(lent, number).map(|group| group.set),
        None => {
            let number = request.field(Field::Variable)?;
            lent.variables.get(number)?;
            1u64.checked_shl(number as u32)
        }
    }
}

/// The values of a set's variables one by one, or together where the bytes are not of their length.
pub fn values_parts(word: &str, set: u64, bytes: &[u8], lent: &Lent) -> Vec<Part> {
    let needed = lent.set_bytes(set);
    if bytes.len() != needed {
        let meaning = format!(
            "{}, where {} should be",
            counted(bytes.len(), "byte"),
            needed
        );
        return vec![Part::new(word, bytes, meaning)];
    }
    let mut rest = bytes;
    let known = members(set).filter(|number| *number < lent.variables.len());
    let part = |variable: usize| {
        let (value, after) = rest.split_at(lent.variables[variable].size.into());
        rest = after;
        let meaning = match number(lent, variable, value) {
            Some(number) if word == "value" => format!("means {}", number),
            _ => kind_name(lent.variables[variable].kind),
        };
        Part::new(format!("{} of {}", word, variable), value, meaning)
    };
    known.map(part).collect()
}
