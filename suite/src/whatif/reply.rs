//! A reply decoded: each field with what it means for its request, or for any that it can answer.
use super::asked::Asked;
use super::bytes::{counted, summed};
use super::commands::{reply_name, Field};
use super::gateway::would_hear;
use super::heard::{Heard, Slot, Value};
use super::packet::Packet;
use super::request::{checksum_part, field_text, numbers_part, size_part};
use super::sheet::Part;
use super::things::{self, curve_text, filled_text, function_text, group, group_text};
use super::things::{kind_name, sum_text, type_name, Curve, Setting};
use crate::lent::Lent;
use cruachvel::{md5, Function, ListedGroup, ListedVariable, Record, SUM_SIZE};

/// The parts of a reply, as its request hears it; where that is not known or doesn't, as far as its bytes go.
pub fn parts(reply: Packet, heard: Option<&(Asked, Heard)>, setting: &Setting) -> Vec<Part> {
    let found = heard.map(|(asked, heard)| asked_parts(asked, heard, &setting.lent));
    with_payload(reply, found.unwrap_or_default(), &setting.lent)
}

/// The same as each of these requests hears it.
pub fn likely_parts(reply: Packet, heard: &[(Asked, Heard)], setting: &Setting) -> Vec<Part> {
    let lent = &setting.lent;
    let found = heard
        .iter()
        .flat_map(|(asked, heard)| likely(asked, heard, lent));
    with_payload(reply, found.collect(), lent)
}

fn with_payload(reply: Packet, found: Vec<Part>, lent: &Lent) -> Vec<Part> {
    let mut parts = Vec::new();
    if let Some(destination) = reply.destination() {
        let meaning = match destination {
            0 => "the master",
            _ => "not the master",
        };
        parts.push(Part::new("destination", &[destination], meaning));
    }
    if let Some(code) = reply.code() {
        parts.push(Part::new("command", &[code], reply_name(code)));
        parts.extend(size_part(reply));
        parts.extend(match found.is_empty() {
            true => payload_parts(code, reply.payload(), lent),
            false => found,
        });
    }
    parts.extend(checksum_part(reply));
    parts
}

/// What the proved side hears in a reply's message to a request, if it fits: its destination and its checksum are looked past.
pub fn heard_in(reply: Packet, asked: Asked, setting: &Setting) -> Option<(Asked, Heard)> {
    let twin = summed(&[&[0], reply.message()].concat());
    let heard = would_hear(setting, &asked, &twin).ok()?;
    Some((asked, heard))
}

// What its request hears in a payload, where that says more than the bytes.
fn asked_parts(asked: &Asked, heard: &Heard, lent: &Lent) -> Vec<Part> {
    match heard {
        Heard::Values(values) => values.iter().map(|value| value_part(value, lent)).collect(),
        Heard::Sum(sum) => {
            let number = asked.number(Field::Curve).unwrap_or_default();
            let stale = md5(&lent.curve_bytes(number)).as_slice() != sum;
            vec![Part::new("sum", sum, sum_text(number, stale))]
        }
        Heard::Output(output) => {
            let number = asked.number(Field::Function).unwrap_or_default();
            let meaning = field_text(Field::Function, number, lent);
            vec![Part::new("output", output, meaning)]
        }
        _ => Vec::new(),
    }
}

// The same where others might have been asked too: each group is named, a sum is told as that of each curve that holds what it is of, and
// what 28 reads is told as that of 10.
fn likely(asked: &Asked, heard: &Heard, lent: &Lent) -> Vec<Part> {
    let parts = asked_parts(asked, heard, lent);
    match (asked.command().code, heard) {
        (0x28, _) => Vec::new(),
        (0x12, Heard::Values(_)) => {
            let number = asked.number(Field::Group).unwrap_or_default();
            let text = group(lent, number).map_or(String::new(), group_text);
            let named = Part::said("if group", number.to_string(), text);
            [named].into_iter().chain(parts).collect()
        }
        (_, Heard::Sum(sum)) => {
            let number = asked.number(Field::Curve).unwrap_or_default();
            match md5(&lent.curve_bytes(number)).as_slice() == sum {
                true => parts,
                false => Vec::new(),
            }
        }
        _ => parts,
    }
}

fn value_part(value: &Value, lent: &Lent) -> Part {
    let kind = lent.variables.get(value.variable).map(|record| record.kind);
    let meaning = match value.number {
        Some(number) => format!("means {}", number),
        None => kind.map_or(String::new(), kind_name),
    };
    let name = format!("value of {}", value.variable);
    Part::new(name, &value.bytes, meaning)
}

fn payload_parts(code: u8, payload: &[u8], lent: &Lent) -> Vec<Part> {
    let whole = |name: &str| vec![Part::new(name, payload, counted(payload.len(), "byte"))];
    match (code, payload) {
        (_, []) => Vec::new(),
        (0x01, [version, sub, revision]) => {
            let version = format!("{}.{}.{}", version, sub, revision);
            vec![Part::new("version", payload, version)]
        }
        (0x03, _) => list(payload, "variable", |record: ListedVariable| {
            slot_text(Slot::from(record), "byte")
        }),
        (0x05, _) => list(payload, "group", |record: ListedGroup| {
            slot_text(Slot::from(record), "variable")
        }),
        (0x07, _) => vec![numbers_part(payload)],
        (0x09, _) => list(payload, "curve", |record: cruachvel::Curve| {
            curve_text(Curve::from(record))
        }),
        (0x0B, _) if payload.len() == SUM_SIZE => {
            vec![Part::new("sum", payload, "of what no curve holds now")]
        }
        (0x0B, _) => whole("sum"),
        (0x0D, _) => list(payload, "function", |record: Function| {
            function_text((record.input.into(), record.output.into()))
        }),
        (0x11 | 0x13, _) => whole("value"),
        (0x41, [curve, high, low, data @ ..]) => {
            let block = u16::from_be_bytes([*high, *low]);
            let number = usize::from(*curve);
            let size = things::curve(lent, number).map_or(data.len(), |curve| curve.size);
            vec![
                Part::new("curve", &[*curve], field_text(Field::Curve, number, lent)),
                Part::new("block", &[*high, *low], format!("block {}", block)),
                Part::new("data", data, filled_text(data.len(), size)),
            ]
        }
        (0x51, _) => whole("output"),
        (0x53, _) => whole("error"),
        _ => whole("payload"),
    }
}

// Records, numbered from 0; what is left over is shown too.
fn list<R: Record>(payload: &[u8], name: &str, meaning: impl Fn(R) -> String) -> Vec<Part> {
    let records = payload.chunks_exact(R::BYTES);
    let left = records.remainder();
    let part = |(number, record)| {
        let meaning = meaning(R::of(record));
        Part::new(format!("{} {}", name, number), record, meaning)
    };
    let mut parts: Vec<Part> = records.enumerate().map(part).collect();
    if !left.is_empty() {
        parts.push(Part::new("cut off", left, ""));
    }
    parts
}

fn slot_text(slot: Slot, thing: &str) -> String {
    let count = counted(slot.count, thing);
    format!("{}, {}", type_name(slot.writable), count)
}
