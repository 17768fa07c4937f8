//! The rule of 01, or of a change request, that decided a call.
use super::asked::Asked;
use super::bytes::summed;
use super::call::Call;
use super::commands::{Amended, Command, Rest, COMMANDS};
use super::ended::{Came, Ended};
use super::heard::Heard;
use super::packet::Packet;
use super::refusals;
use super::steps::{step_of, Step, STEPS};
use super::things::Setting;
use cruachvel::Refusal;

/// A rule of 01, and what made it apply.
#[derive(Debug)]
pub enum Rule {
    /// A local refusal, by 01's condition or by the words of a change request.
    Refusal(Refusal, Option<&'static Amended>, String),
    /// A step of the wire errors, for a request with this code, if it has one.
    Step(&'static Step, Option<u8>, String),
    /// No refusal and no wire error: the command's row.
    Row(&'static Command),
    /// No refusal: what 01 says of such a call.
    Sentence(&'static str),
    /// No refusal: what change requests say of such a call, and the row of the command that is asked or answered.
    Amended(&'static [Amended], Option<&'static Command>),
    /// A multicast packet: what its message would have been answered with, and by which rule.
    Multicast(Ended, Box<Rule>),
    /// None that is known to give this outcome for these bytes.
    None,
}

const MULTICAST: &str =
    "Packets to 248..255 are carried out if the multicast byte has that address, and never answered.";

const STORE: &str =
    "The board may store a new value into any variable, read-only or busy too; only those bytes change.";
pub const RESULT: &str =
    "Handed the result, and whether an answer was due, the node writes reply 51 with the output, or 53 with one error byte; if none was due, it stays silent.";
const SIGNED: &str =
    "For signed kinds the sign is the top bit of the most significant byte: n bytes with unsigned value u mean u, or u − 2^(8n) if u ≥ 2^(8n−1).";
const UNSIGNED: &str =
    "plain bytes, unsigned or signed; big or little endian; a number has size 1, 2, 4 or 8";
const WAY_BACK: &str =
    "The way back accepts exactly the numbers of that range and writes the only bytes that read as them.";
const FRESH: [Amended; 2] = [
    Amended {
        request: "2026-02",
        words: "Each curve's sum is part of the state: a fresh board works it out, a block write leaves it stale, 42 renews it, for read-only curves too.",
    },
    Amended {
        request: "2026-03",
        words: "Each block gets a length of its own, 1 to the block size, full on a fresh board.",
    },
];
const ASKED: [Amended; 1] = [of_asking(
    "writes any request of 01's table, 0A and 42 too, from its meaning",
)];
const ASKED_SORTED: [Amended; 2] = [ASKED[0], of_asking("A new group's IDs are sorted first.")];
const HEARD: [Amended; 1] = [of_asking(
    "each answer to such a request must be read as what the board holds or as the named error",
)];
const HEARD_VALUES: [Amended; 2] = [
    HEARD[0],
    of_asking("Kinds don't travel on the wire: the gateway supplies them, and its numbers follow 01's reading rule."),
];
const LEARNED: [Amended; 1] = [of_asking(
    "learns a node's variables, groups, curves and functions from the lists",
)];
pub const BUSY: &str =
    "Busy marks, bit n of a 64-bit number for variable n (higher bits count for nothing), come from the board with each packet.";

const fn of_asking(words: &'static str) -> Amended {
    Amended {
        request: "2026-04",
        words,
    }
}

impl Rule {
    pub fn lines(&self) -> Vec<String> {
        match self {
            Rule::Refusal(refusal, amended, reason) => {
                let named = format!("refusal {}, {}", refusal.number(), refusal);
                let rule = match amended {
                    Some(amended) => format!("{}, {}", named, amended.text()),
                    None => format!("{}: \"{}\"", named, refusals::condition(*refusal)),
                };
                vec![rule, reason.clone()]
            }
            Rule::Step(step, code, reason) => vec![step.text(*code), reason.clone()],
            Rule::Sentence(sentence) => vec![format!("no refusal; \"{}\"", sentence)],
            Rule::Amended(all, row) => {
                let mut texts: Vec<String> = all.iter().map(Amended::text).collect();
                texts.extend(row.map(Command::text));
                vec![format!("no refusal; {}", texts.join("; "))]
            }
            Rule::Row(command) => vec![format!(
                "no refusal and no wire error; {}",
                command.text()
            )],
            Rule::Multicast(would, rule) => {
                let mut lines = vec![format!("\"{}\"", MULTICAST)];
                lines.push(format!("to the own address the outcome would be: {}", would.text()));
                lines.extend(rule.lines());
                lines
            }
            Rule::None => vec!["none of 01's rules is known to give this outcome for these bytes; please report it".to_string()],
        }
    }

    /// The number of the step of the wire errors, also of one that a multicast kept quiet.
    pub fn step(&self) -> Option<u8> {
        match self {
            Rule::Step(step, ..) => Some(step.number),
            Rule::Multicast(_, rule) => rule.step(),
            _ => None,
        }
    }

    /// Whether a rule was found, for a multicast also the one that its message fell under.
    pub fn found(&self) -> bool {
        match self {
            Rule::None => false,
            Rule::Multicast(_, rule) => rule.found(),
            _ => true,
        }
    }
}

/// All words of 01 and of its change requests that an explanation can quote.
pub fn quotes() -> Vec<String> {
    let steps = STEPS.iter().flat_map(|step| {
        let amended = step.amended.as_ref().map(|amended| amended.words);
        [step.words].into_iter().chain(amended).map(str::to_string)
    });
    let rows = COMMANDS.iter().flat_map(|command| {
        let amended = command.amended.as_ref().map(|amended| amended.words);
        [command.quote()]
            .into_iter()
            .chain(amended.map(str::to_string))
    });
    // 1 to 12; of the others a change request speaks.
    let conditions = Refusal::ALL[..12].iter().map(|refusal| {
        let (number, condition) = (refusal.number(), refusals::condition(*refusal));
        format!("| {} | {} | {} |", number, refusal, condition)
    });
    let all = steps.chain(rows).chain(conditions);
    let sentences = [MULTICAST, STORE, RESULT, SIGNED, UNSIGNED, WAY_BACK, BUSY];
    let asking = [&ASKED_SORTED[..], &HEARD_VALUES, &LEARNED].concat();
    let amendments = FRESH.iter().chain(&asking).map(|amended| amended.words);
    let amendments: Vec<&str> = amendments.collect();
    let others = amendments
        .into_iter()
        .chain(refusals::amendments())
        .chain(sentences);
    all.chain(others.map(str::to_string)).collect()
}

/// The rule that gave this to a call, on the board as it was before.
pub fn rule_of(call: &Call, came: &Came, before: &Setting) -> Rule {
    match (call, came) {
        (Call::Packet(request), Came::Ended(ended)) => rule(ended, Packet(request), before),
        (_, Came::Ended(Ended::Refused(refusal))) => refused(*refusal, call, before),
        (Call::Hear(asked, _), Came::Heard(heard)) => heard_rule(asked, heard),
        _ => sentence(call),
    }
}

fn refused(refusal: Refusal, call: &Call, before: &Setting) -> Rule {
    let amended = refusals::amended(refusal, call, before);
    refusals::call_reason(refusal, call, before)
        .map_or(Rule::None, |reason| Rule::Refusal(refusal, amended, reason))
}

fn heard_rule(asked: &Asked, heard: &Heard) -> Rule {
    let row = Some(asked.command());
    match heard {
        Heard::Error(_) => Rule::Amended(&HEARD, None),
        Heard::Values(_) => Rule::Amended(&HEARD_VALUES, row),
        Heard::Variables(_) | Heard::Groups(_) | Heard::Members(_) => Rule::Amended(&LEARNED, row),
        Heard::Curves(_) | Heard::Functions(_) => Rule::Amended(&LEARNED, row),
        _ => Rule::Amended(&HEARD, row),
    }
}

// What 01 says of a call that is not refused.
fn sentence(call: &Call) -> Rule {
    Rule::Sentence(match call {
        Call::Packet(_) | Call::Hear(..) => return Rule::None,
        Call::Fresh => return Rule::Amended(&FRESH, None),
        Call::Forget => return Rule::Amended(&LEARNED, None),
        Call::Ask(asked) => {
            let command = asked.command();
            let words: &[Amended] = match command.rest {
                Rest::Members => &ASKED_SORTED,
                _ => &ASKED,
            };
            return Rule::Amended(words, Some(command));
        }
        Call::Store(..) => STORE,
        Call::Result { .. } => RESULT,
        Call::Read { signed: true, .. } => SIGNED,
        Call::Read { signed: false, .. } => UNSIGNED,
        Call::Write { .. } => WAY_BACK,
    })
}

/// The rule that gave this outcome to a request, on the board as it was before.
pub fn rule(ended: &Ended, request: Packet, before: &Setting) -> Rule {
    match ended {
        Ended::Refused(refusal) => refused(*refusal, &Call::Packet(request.0.to_vec()), before),
        Ended::Silence => multicast(request, before),
        _ => match ended.code() {
            Some(error @ 0xE1..=0xFF) => match step_of(error, request, before) {
                Some((step, reason)) => Rule::Step(step, request.code(), reason),
                None => Rule::None,
            },
            _ => request.command().map_or(Rule::None, Rule::Row),
        },
    }
}

// The proved node says what the same message gets when an answer is due.
fn multicast(request: Packet, before: &Setting) -> Rule {
    let own = before.lent.address.own;
    let twin = summed(&[&[own], request.message()].concat());
    match before.would(&twin) {
        Ended::Silence => Rule::None,
        would => {
            let rule = rule(&would, Packet(&twin), before);
            Rule::Multicast(would, Box::new(rule))
        }
    }
}
