//! A call explained: what came of it, which rule decided, and what changed.
use super::asked::Asked;
use super::bytes::{checksum, summed};
use super::call::{due_name, Call};
use super::changes::changes;
use super::commands::Field;
use super::ended::{proved, Came, Ended};
use super::gateway::would_hear;
use super::packet::Packet;
use super::sheet::{Part, Sheet};
use super::things::function;
use super::{reply, request, rule_of, Setting};
use cruachvel::Refusal;

/// Carries out a call and says what came of it and why.
pub fn explain(setting: &mut Setting, call: &Call) -> Sheet {
    let before = setting.clone();
    let came = proved(setting, call);
    let rule = rule_of(call, &came, &before);
    let mut sheet = Sheet::default();
    put_call(&mut sheet, call, &before);
    sheet.text("outcome", came.text());
    sheet.word("ended", came.line());
    sheet.number("step", rule.step());
    sheet.list("rule", rule.lines());
    if let Some(hint) = hint(&came, call, &before, setting) {
        sheet.text("hint", hint);
    }
    match &came {
        Came::Ended(Ended::Reply(bytes)) => {
            let parts = reply_parts(Packet(bytes), call, &before);
            sheet.packet("reply", bytes, parts);
        }
        Came::Sends(bytes) => {
            let parts = request::parts(Packet(bytes), &before);
            sheet.packet("sends", bytes, parts);
        }
        _ => (),
    }
    sheet.list("changed", changes(&before, setting));
    sheet
}

// The node's reply, as a gateway hears it that knows the board as it was.
fn reply_parts(reply: Packet, call: &Call, before: &Setting) -> Vec<Part> {
    let asked = match call {
        Call::Packet(request) => Asked::of_packet(Packet(request)),
        _ => None,
    };
    let before = before.clone().learned();
    let heard = asked.and_then(|asked| reply::heard_in(reply, asked, &before));
    reply::parts(reply, heard.as_ref(), &before)
}

fn put_call(sheet: &mut Sheet, call: &Call, before: &Setting) {
    let parts = request::call_parts(call, before);
    match (call, call.words()) {
        (Call::Packet(bytes) | Call::Hear(_, bytes), (keyword, _)) => {
            sheet.packet(keyword, bytes, parts)
        }
        (_, (keyword, words)) => sheet.words(keyword, words, parts),
    }
}

fn hint(came: &Came, call: &Call, before: &Setting, after: &Setting) -> Option<String> {
    match (came, call) {
        (Came::Ended(Ended::Refused(Refusal::Checksum)), Call::Packet(request)) => {
            Some(checksum_hint(request, before))
        }
        (Came::Ended(Ended::Refused(Refusal::Checksum)), Call::Hear(asked, reply)) => {
            heard_hint(asked, reply, before)
        }
        (Came::Ended(Ended::Run { function, due, .. }), _) => result_hint(*function, *due, before),
        (Came::Ended(ended), Call::Packet(request)) => stale_hint(ended, Packet(request), after),
        _ => None,
    }
}

// What the packet would have ended in with the right checksum, which may have been left out.
fn checksum_hint(request: &[u8], before: &Setting) -> String {
    let whole = summed(request);
    if Packet(&whole).is_whole() {
        return format!(
            "the checksum seems to be left out: with {:02X} added, as --sum does, the outcome would be: {}",
            checksum(request), before.would(&whole).text()
        );
    }
    let message = request.split_last().map_or(request, |(_, message)| message);
    format!(
        "with {:02X} as its last byte the outcome would be: {}",
        checksum(message),
        before.would(&summed(message)).text()
    )
}

/// What a reply would be heard as with the right checksum.
pub fn heard_hint(asked: &Asked, reply: &[u8], before: &Setting) -> Option<String> {
    let (_, message) = reply.split_last()?;
    let mended = summed(message);
    let came = Came::of(would_hear(before, asked, &mended), Came::Heard);
    let right = checksum(message);
    Some(format!(
        "with {:02X} as its last byte the outcome would be: {}",
        right,
        came.text()
    ))
}

// That a sum which was read, or whose curve was written, is not of what the curve holds now.
fn stale_hint(ended: &Ended, request: Packet, after: &Setting) -> Option<String> {
    let pair = (request.code(), ended.code());
    let has_to_do = matches!(pair, (Some(0x0A), Some(0x0B)) | (Some(0x41), Some(0xE0)));
    let number = request.field(Field::Curve)?;
    let hint = || format!("the sum of curve {} is stale; 42 renews it", number);
    (has_to_do && after.lent.is_stale(number)).then(hint)
}

// How the function's result is handed in.
fn result_hint(number: usize, due: bool, before: &Setting) -> Option<String> {
    let (_, output) = function(&before.lent, number)?;
    let line = format!("result {} {}", number, due_name(due));
    let output = " ..".repeat(output);
    Some(format!(
        "the line for its result is: {} gave{}, or: {} failed ..",
        line, output, line
    ))
}
