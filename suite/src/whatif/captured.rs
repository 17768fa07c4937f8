//! A reply that was captured, with its request or without: what the proved asking side hears in it, and which requests it can answer.
use super::asked::Asked;
use super::bytes::{checksum, counted, summed};
use super::call::Call;
use super::commands::{known_reply, Command, Field, COMMANDS};
use super::ended::{proved, Came, Ended};
use super::explain::heard_hint;
use super::gateway::{ask, would_hear};
use super::heard::Heard;
use super::packet::Packet;
use super::rule::{rule_of, RESULT};
use super::sheet::Sheet;
use super::steps::{malformed, STEPS};
use super::things::{listed, Setting};
use super::unfit::{destination_text, hear_reason};
use super::{refusals, reply, request};
use cruachvel::{Refusal, MOST_PACKET};

// Where a request goes of which only the reply is known: any address will do that is one.
const SOMEWHERE: u8 = 1;
// More reasons than this are not told one by one.
const TOLD: usize = 4;

/// Says what a reply means, what it can answer, and what is wrong with it; if its request is given, what that asks, and how the reply is heard.
/// The gateway knows the board as it is.
pub fn captured(bytes: &[u8], request: Option<&[u8]>, setting: &Setting) -> Sheet {
    let setting = setting.clone().learned();
    let mut sheet = Sheet::default();
    match request {
        None => lone(&mut sheet, Packet(bytes), &setting),
        Some(request) => {
            let request = Packet(request);
            let parts = request::parts(request, &setting);
            sheet.packet("request", request.0, parts);
            match Asked::of_packet(request) {
                None => {
                    let why = no_request(request, &setting);
                    sheet.text("asks", format!("nothing that a gateway sends: {}", why));
                    lone(&mut sheet, Packet(bytes), &setting);
                }
                Some(asked) => {
                    sheet.text("asks", asks(&asked, request, &setting));
                    answer(&mut sheet, asked, bytes, &setting);
                }
            }
        }
    }
    sheet
}

// A reply whose request is known.
fn answer(sheet: &mut Sheet, asked: Asked, bytes: &[u8], setting: &Setting) {
    let call = Call::Hear(asked.clone(), bytes.to_vec());
    let parts = request::call_parts(&call, setting);
    sheet.packet("reply", bytes, parts);
    let came = proved(&mut setting.clone(), &call);
    sheet.text("outcome", came.text());
    sheet.word("ended", came.line());
    sheet.list("rule", rule_of(&call, &came, setting).lines());
    let refusal = match came {
        Came::Ended(Ended::Refused(refusal)) => Some(refusal),
        _ => None,
    };
    if refusal == Some(Refusal::Checksum) {
        let hint = heard_hint(&asked, bytes, setting);
        hint.into_iter().for_each(|hint| sheet.text("hint", hint));
    }
    let reason = |refusal| hear_reason(refusal, &asked, Packet(bytes), setting);
    sheet.list("wrong", refusal.and_then(reason).into_iter().collect());
}

// What a request asks, and what a gateway would send in its place, if it would.
fn asks(asked: &Asked, request: Packet, setting: &Setting) -> String {
    match ask(setting, asked) {
        Came::Sends(sent) if sent == request.0 => asked.text(),
        Came::Sends(_) => format!("{}; a gateway would send its IDs sorted", asked.text()),
        other => format!(
            "{}; a gateway that is to ask this is {}",
            asked.text(),
            other.text()
        ),
    }
}

fn no_request(request: Packet, setting: &Setting) -> String {
    let refused = [Refusal::PacketLength, Refusal::Checksum].into_iter();
    let mut refused = refused.filter_map(|refusal| refusals::reason(refusal, request, setting));
    let steps = STEPS
        .iter()
        .filter(|step| matches!(step.number, 1 | 2 | 3 | 5));
    let mut steps = steps.filter_map(|step| step.reason(request, setting));
    let reason = refused.next().or_else(|| steps.next());
    reason.unwrap_or_else(|| "it has another form".to_string())
}

// A reply whose request is not known.
fn lone(sheet: &mut Sheet, reply: Packet, setting: &Setting) {
    let asked = requests(reply, setting);
    let heard = asked.iter().cloned();
    let heard: Vec<(Asked, Heard)> = heard
        .filter_map(|asked| reply::heard_in(reply, asked, setting))
        .collect();
    sheet.packet(
        "reply",
        reply.0,
        reply::likely_parts(reply, &heard, setting),
    );
    let is_heard = |(asked, _): &&(Asked, Heard)| would_hear(setting, asked, reply.0).is_ok();
    let answered: Vec<&(Asked, Heard)> = heard.iter().filter(is_heard).collect();
    sheet.list("answers", answers(&answered));
    if answered.is_empty() {
        let version = Asked::bare(SOMEWHERE, &COMMANDS[0], |_| 0);
        let came = Came::of(would_hear(setting, &version, reply.0), Came::Heard);
        sheet.text("outcome", came.text());
        sheet.word("ended", came.line());
    }
    if let Some(code) = reply.code().filter(|code| known_reply(*code).is_some()) {
        sheet.list("rule", rules(code));
    }
    let mut wrong = wrong(reply);
    if heard.is_empty() && malformed(reply).is_none() && reply.0.len() <= MOST_PACKET {
        wrong.extend(reasons(reply, &asked, setting));
    }
    sheet.list("wrong", wrong);
}

// All that can be asked of this board, with what the reply itself names: its block.
fn requests(reply: Packet, setting: &Setting) -> Vec<Asked> {
    let seen = setting.seen();
    let block = match reply.payload() {
        [_, high, low, ..] => u16::from_be_bytes([*high, *low]).into(),
        _ => 0,
    };
    let count = |field: &Field| match field {
        Field::Variable | Field::VariableRead => seen.variables.len(),
        Field::Group => seen.group_sets(&seen.groups).len(),
        Field::Curve => seen.curves.len() / 3,
        Field::Function => seen.functions.len() / 2,
        Field::Operation | Field::Block => 0,
    };
    let mut all = Vec::new();
    for command in &COMMANDS {
        let named = names(command);
        let count = named.as_ref().map_or(1, count);
        all.extend((0..count).map(|number| {
            Asked::bare(SOMEWHERE, command, |field| match field {
                Field::Block => block,
                field if Some(field) == named => number,
                _ => 0,
            })
        }));
    }
    all
}

// What a command names, as far as its answer hangs on it: of 28 the variable that is read.
fn names(command: &Command) -> Option<Field> {
    let mut fields = command.front.iter().rev();
    let found = fields.find(|field| !matches!(field, Field::Block | Field::Operation));
    found.copied()
}

// Requests by their commands, each with what they name.
fn answers(heard: &[&(Asked, Heard)]) -> Vec<String> {
    let errors = heard
        .iter()
        .filter(|(_, heard)| matches!(heard, Heard::Error(_)));
    if errors.count() > 0 {
        return vec!["any request".to_string()];
    }
    let of = |command: &Command| {
        let asked = heard.iter().map(|(asked, _)| asked);
        let asked: Vec<&Asked> = asked.filter(|asked| asked.command() == command).collect();
        let row = format!("{:02X}, {}", command.code, command.name);
        match (asked.as_slice(), command.answers().as_slice()) {
            ([], _) => None,
            (_, [0xE0]) => Some(row),
            (asked, _) => Some(row + &named(asked)),
        }
    };
    COMMANDS.iter().filter_map(of).collect()
}

// What these requests of one command name: what their answer hangs on.
fn named(asked: &[&Asked]) -> String {
    let field = asked.first().and_then(|asked| names(asked.command()));
    let numbers = |field: Field| {
        let numbers = asked.iter().filter_map(|asked| asked.number(field));
        let mut numbers: Vec<usize> = numbers.collect();
        numbers.dedup();
        let plural = if numbers.len() == 1 { "" } else { "s" };
        format!("{}{} {}", field.name(), plural, listed(numbers.into_iter()))
    };
    let block = asked.first().and_then(|asked| asked.number(Field::Block));
    let block = block.map_or(String::new(), |block| format!(", block {}", block));
    field.map_or(String::new(), |field| {
        format!(": {}{}", numbers(field), block)
    })
}

// What gets a reply with this code.
fn rules(code: u8) -> Vec<String> {
    let steps = STEPS.iter().filter(|step| step.error == code);
    let mut lines: Vec<String> = steps.map(|step| step.text(None)).collect();
    let rows = COMMANDS
        .iter()
        .filter(|command| command.answers().contains(&code));
    lines.extend(rows.map(|command| match command.answers().len() {
        1 => command.text(),
        _ => format!("\"{}\"", RESULT),
    }));
    lines
}

// What is wrong with a reply, whatever it answers.
fn wrong(reply: Packet) -> Vec<String> {
    let length = reply.0.len();
    let mut lines = Vec::new();
    if length > MOST_PACKET {
        let has = counted(length, "byte");
        lines.push(format!("the reply has {}; at most 4,104 are allowed", has));
    }
    match reply.destination() {
        None | Some(0) => (),
        Some(other) => lines.push(destination_text(other)),
    }
    lines.extend(malformed(reply));
    if let Some(code) = reply.code().filter(|code| known_reply(*code).is_none()) {
        lines.push(format!("{:02X} is no reply's code", code));
    }
    if let (1.., Some((_, message))) = (reply.sum(), reply.0.split_last()) {
        let right = checksum(message);
        lines.push(format!("the checksum should be {:02X}", right));
    }
    lines
}

// Why a message is no answer to any request that has answers with its code.
fn reasons(reply: Packet, asked: &[Asked], setting: &Setting) -> Vec<String> {
    let code = match reply.code() {
        Some(code) if known_reply(code).is_some() => code,
        _ => return Vec::new(),
    };
    if matches!(code, 0xE1..=0xE8) {
        let version = Asked::bare(SOMEWHERE, &COMMANDS[0], |_| 0);
        return Vec::from_iter(unfit(&version, reply, setting));
    }
    let of_code = |command: &Command| command.answers().contains(&code);
    let fit = asked.iter().filter(|asked| of_code(asked.command()));
    let mut lines: Vec<String> = Vec::new();
    for line in fit.filter_map(|asked| unfit(asked, reply, setting)) {
        if !lines.contains(&line) {
            lines.push(line);
        }
    }
    if lines.is_empty() {
        let why = match setting.known.variables {
            0 => "the board answers nothing, so that a gateway can't learn its sizes",
            _ => "the board has nothing that it could be an answer about",
        };
        lines.push(why.to_string());
    }
    if lines.len() > TOLD {
        let more = lines.len() - TOLD;
        lines.truncate(TOLD);
        lines.push(format!("and {} more requests that it doesn't fit", more));
    }
    lines
}

fn unfit(asked: &Asked, reply: Packet, setting: &Setting) -> Option<String> {
    let twin = summed(&[&[0], reply.message()].concat());
    hear_reason(Refusal::ReplyUnfit, asked, Packet(&twin), setting)
}
