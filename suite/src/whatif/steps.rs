//! The ten steps of 01's wire errors: which of them gave an error.
//!
//! The error is the proved node's. The step is told from it together with the request's bytes and the board.
use super::bytes::{counted, grouped};
use super::commands::{operation_name, Amended, Command, Field, Rest};
use super::packet::Packet;
use super::things::{busy_text, curve, function, group, missing, Setting};

/// A step of 01's list of wire errors, in 01's words, and in those of a change request that moved it; of all commands, or of some.
#[derive(Debug, PartialEq, Eq)]
pub struct Step {
    pub number: u8,
    pub error: u8,
    pub words: &'static str,
    pub amended: Option<Amended>,
    commands: &'static [u8],
}

const fn step(number: u8, error: u8, words: &'static str) -> Step {
    Step {
        number,
        error,
        words,
        amended: None,
        commands: &[],
    }
}

const BUSY_READS: Amended = Amended {
    request: "2026-01",
    words: "E8 keeps its place in the order, now for reads too.",
};

// A step that 0A and 42 meet too.
const fn of_sums(step: Step) -> Step {
    Step {
        amended: Some(Amended {
            request: "2026-02",
            words: "E5 then E3 for both",
        }),
        commands: &[0x0A, 0x42],
        ..step
    }
}

#[rustfmt::skip]
pub const STEPS: [Step; 10] = [
    step(1, 0xE1, "E1: message under 3 bytes, or SIZE not the number of bytes that follow."),
    step(2, 0xE2, "E2: command not above."),
    of_sums(step(3, 0xE5, "E5: payload not of the fixed size, or shorter than its front (20, 22, 50: 1; 24, 26, 28: 2; 41: 3; 30: 1), or for 30 more IDs than variables.")),
    of_sums(step(4, 0xE3, "E3: any variable, group, curve or function named that doesn't exist.")),
    step(5, 0xE2, "E2: operation not one of the six."),
    step(6, 0xE4, "E4: block number not below the count; in 30, IDs not strictly ascending."),
    step(7, 0xE5, "E5 (not for 30): what follows the front is not of the declared length; in 41, not 1 to the block size of bytes."),
    step(8, 0xE6, "E6: the thing to be written is read-only."),
    Step { amended: Some(BUSY_READS), ..step(9, 0xE8, "E8: a variable to be written is busy.") },
    step(10, 0xE7, "E7: five groups made already."),
];

/// The step that gave this error, and why it applies.
pub fn step_of(error: u8, request: Packet, setting: &Setting) -> Option<(&'static Step, String)> {
    let mut steps = STEPS.iter().filter(|step| step.error == error);
    steps.find_map(|step| Some((step, step.reason(request, setting)?)))
}

impl Step {
    /// The step's words for a request with this code, if one is known.
    pub fn text(&self, code: Option<u8>) -> String {
        let amended = self.amended.as_ref().filter(|_| match code {
            Some(code) => self.commands.is_empty() || self.commands.contains(&code),
            None => true,
        });
        let amended = amended.map_or(String::new(), |amended| format!(", {}", amended.text()));
        format!(
            "step {} of the wire errors: \"{}\"{}",
            self.number, self.words, amended
        )
    }

    /// Why this step's condition holds for a request, if it does. Other steps are not looked at.
    pub fn reason(&self, request: Packet, setting: &Setting) -> Option<String> {
        if self.number == 1 {
            return malformed(request);
        }
        let command = match request.command() {
            Some(command) => command,
            None if self.number == 2 => {
                return Some(format!("{:02X} is no command", request.code()?))
            }
            None => return None,
        };
        match self.number {
            3 => payload_size(command, request, setting),
            4 => unknown_thing(request, setting),
            5 => unknown_operation(request),
            6 => block_number(request, setting).or_else(|| not_ascending(request.members())),
            7 => declared_length(command, request, setting),
            8 => read_only(command, request, setting),
            9 => busy(command, request, setting),
            10 => groups_full(command, setting),
            _ => None,
        }
    }
}

/// What is wrong with the form of a request's message, or a reply's.
pub fn malformed(request: Packet) -> Option<String> {
    let message = request.message().len();
    match request.size() {
        _ if message < 3 => Some(format!("the message has {}", counted(message, "byte"))),
        Some(size) if size != request.payload().len() => {
            let follow = counted(request.payload().len(), "byte");
            Some(format!("SIZE is {}, and the payload has {}", size, follow))
        }
        _ => None,
    }
}

fn payload_size(command: &Command, request: Packet, setting: &Setting) -> Option<String> {
    let (given, least) = (request.payload().len(), command.least());
    let has = format!("the payload has {}", counted(given, "byte"));
    match command.rest {
        Rest::Nothing if given != least => {
            Some(format!("{}; {:02X} takes {}", has, command.code, least))
        }
        _ if given < least => Some(format!(
            "{}; {:02X} takes at least {}",
            has, command.code, least
        )),
        Rest::Members if given > setting.lent.variables.len() => {
            let declared = counted(setting.lent.variables.len(), "variable");
            Some(format!(
                "{}, and the board has {}",
                counted(given, "ID"),
                declared
            ))
        }
        _ => None,
    }
}

fn unknown_thing(request: Packet, setting: &Setting) -> Option<String> {
    let lent = &setting.lent;
    let fields = [
        (Field::Variable, "variable", lent.variables.len()),
        (Field::VariableRead, "variable", lent.variables.len()),
        (Field::Group, "group", lent.group_sets(&lent.groups).len()),
        (Field::Curve, "curve", lent.curves.len() / 3),
        (Field::Function, "function", lent.functions.len() / 2),
    ];
    let named = fields
        .iter()
        .filter_map(|(field, name, count)| Some((request.field(*field)?, *name, *count)));
    let members = request
        .members()
        .iter()
        .map(|number| (usize::from(*number), "variable", lent.variables.len()));
    named
        .chain(members)
        .find_map(|(number, name, count)| missing(name, number, count))
}

fn unknown_operation(request: Packet) -> Option<String> {
    let operation = request.field(Field::Operation)? as u8;
    let unknown = operation_name(operation).is_none();
    unknown.then(|| format!("{:02X} is none of 53, 4F, 43, 54, 58 and 41", operation))
}

fn block_number(request: Packet, setting: &Setting) -> Option<String> {
    let (number, block) = (request.field(Field::Curve)?, request.field(Field::Block)?);
    let blocks = curve(&setting.lent, number)?.blocks;
    let text = || {
        format!(
            "block {} is asked for, and curve {} has {}",
            block,
            number,
            counted(blocks, "block")
        )
    };
    (block >= blocks).then(text)
}

/// Where IDs are not strictly ascending, if they are not.
pub fn not_ascending(ids: &[u8]) -> Option<String> {
    let pair = ids.windows(2).find(|pair| pair[0] >= pair[1])?;
    Some(format!("{} comes after {}", pair[1], pair[0]))
}

// What a message names first: what it is to read or write, or the function that it is to run.
struct Target {
    name: String,
    bytes: usize,
    writable: bool,
    set: u64,
}

impl Target {
    fn of(request: Packet, setting: &Setting) -> Option<Target> {
        let lent = &setting.lent;
        let (fields, _) = request.fields(request.command()?);
        let (field, bytes) = *fields.first()?;
        let number = usize::from(*bytes.first()?);
        let (name, bytes, writable, set) = match field {
            Field::Variable => {
                let record = lent.variables.get(number)?;
                (
                    "variable",
                    record.size.into(),
                    record.writable == 1,
                    1u64.checked_shl(number as u32)?,
                )
            }
            Field::Group => {
                let group = group(lent, number)?;
                (
                    "group",
                    lent.set_bytes(group.set),
                    group.writable,
                    group.set,
                )
            }
            Field::Curve => {
                let curve = curve(lent, number)?;
                ("curve", curve.size, curve.writable, 0)
            }
            Field::Function => ("function", function(lent, number)?.0, true, 0),
            _ => return None,
        };
        Some(Target {
            name: format!("{} {}", name, number),
            bytes,
            writable,
            set,
        })
    }
}

fn declared_length(command: &Command, request: Packet, setting: &Setting) -> Option<String> {
    let target = Target::of(request, setting)?;
    let (given, declared) = (request.rest().len(), target.bytes);
    let after = format!("{} after the front", counted(given, "byte"));
    match command.rest {
        Rest::Data if !(1..=declared).contains(&given) => Some(format!(
            "{}; {} takes 1 to {}",
            after,
            target.name,
            grouped(declared)
        )),
        Rest::Value | Rest::Mask | Rest::Input if given != declared => Some(format!(
            "{}; {} takes {}",
            after,
            target.name,
            grouped(declared)
        )),
        _ => None,
    }
}

fn read_only(command: &Command, request: Packet, setting: &Setting) -> Option<String> {
    let target = Target::of(request, setting)?;
    let writes = matches!(command.rest, Rest::Value | Rest::Mask | Rest::Data);
    (writes && !target.writable).then(|| format!("{} is read-only", target.name))
}

fn busy(command: &Command, request: Packet, setting: &Setting) -> Option<String> {
    let busy = touched(command, request, setting)? & setting.busy;
    (busy != 0).then(|| busy_text(busy))
}

// The variables that a message reads or writes, as marks.
fn touched(command: &Command, request: Packet, setting: &Setting) -> Option<u64> {
    let first = match command.rest {
        Rest::Value | Rest::Mask => Target::of(request, setting)?.set,
        Rest::Nothing if matches!(command.code, 0x10 | 0x12) => Target::of(request, setting)?.set,
        _ => 0,
    };
    let read = request.field(Field::VariableRead).unwrap_or(64);
    Some(first | 1u64.checked_shl(read as u32).unwrap_or(0))
}

fn groups_full(command: &Command, setting: &Setting) -> Option<String> {
    let full = command.rest == Rest::Members && setting.lent.groups.count >= 5;
    full.then(|| "groups 3 to 7 are made".to_string())
}
