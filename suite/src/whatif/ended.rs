//! What a call ends in, and the proved node and its asking side, which carry calls out.
use super::bytes::{counted, hex, shown};
use super::call::{due_name, Call};
use super::commands::reply_name;
use super::gateway;
use super::heard::Heard;
use super::packet::Packet;
use super::Setting;
use crate::lent::Lent;
use cruachvel::{Learned, Outcome, Ran, Refusal, VariableNumber, MOST_PACKET};

/// What a packet or a function's result ended in.
#[derive(Clone, Debug, PartialEq, Eq)]
pub enum Ended {
    Reply(Vec<u8>),
    Silence,
    Run {
        function: usize,
        input: Vec<u8>,
        due: bool,
    },
    Refused(Refusal),
}

impl Ended {
    pub fn of(outcome: Outcome) -> Ended {
        match outcome {
            Outcome::Reply(reply) => Ended::Reply(reply.to_vec()),
            Outcome::Silence => Ended::Silence,
            Outcome::Run {
                function,
                input,
                due,
            } => Ended::Run {
                function: function.0,
                input: input.to_vec(),
                due,
            },
            Outcome::Refused(refusal) => Ended::Refused(refusal),
        }
    }

    /// The code of the reply, if there is one.
    pub fn code(&self) -> Option<u8> {
        match self {
            Ended::Reply(reply) => Packet(reply).code(),
            _ => None,
        }
    }

    pub fn text(&self) -> String {
        match self {
            Ended::Reply(_) => self.code().map_or("an empty reply".to_string(), |code| {
                format!("reply {:02X}, {}", code, reply_name(code))
            }),
            Ended::Silence => "silence".to_string(),
            Ended::Run {
                function,
                input,
                due,
            } => {
                let input = shown(input);
                let due = due_text(*due);
                format!(
                    "function {} is to be run, input {}; {}",
                    function, input, due
                )
            }
            Ended::Refused(refusal) => format!("refused with {}, {}", refusal.number(), refusal),
        }
    }

    // As a line of the cases says it.
    fn line(&self) -> String {
        match self {
            Ended::Reply(reply) => format!("reply {}", hex(reply)),
            Ended::Silence => "silence".to_string(),
            Ended::Run {
                function,
                input,
                due,
            } => format!("run {} {} {}", function, due_name(*due), hex(input)),
            Ended::Refused(refusal) => format!("refused {}", refusal.number()),
        }
    }
}

pub fn due_text(due: bool) -> &'static str {
    if due {
        "an answer is due"
    } else {
        "no answer is due"
    }
}

/// What a call came to. Whatever was refused has ended so.
#[derive(Clone, Debug, PartialEq, Eq)]
pub enum Came {
    Ended(Ended),
    Done,
    Fresh,
    Number(i128),
    Bytes(Vec<u8>),
    /// The packet of a request.
    Sends(Vec<u8>),
    Heard(Heard),
    Forgot,
}

impl Came {
    pub fn of<T>(result: Result<T, Refusal>, came: impl Fn(T) -> Came) -> Came {
        result.map_or_else(|refusal| Came::Ended(Ended::Refused(refusal)), came)
    }

    /// With a reply buffer in which the reply alone may have been written.
    pub fn sent(ended: Ended, buffer: &[u8]) -> Came {
        let length = match &ended {
            Ended::Reply(reply) => reply.len(),
            _ => 0,
        };
        let kept = buffer[length..].iter().all(|byte| *byte == FILLING);
        assert!(kept, "{:?} wrote more than its reply", ended);
        Came::Ended(ended)
    }

    pub fn text(&self) -> String {
        match self {
            Came::Ended(ended) => ended.text(),
            Came::Done => "the value is stored".to_string(),
            Came::Fresh => "all blocks are full, and the sums are worked out".to_string(),
            Came::Number(number) => format!("the number {}", number),
            Came::Bytes(bytes) => format!("the bytes {}", shown(bytes)),
            Came::Sends(packet) => format!("a packet of {} is sent", counted(packet.len(), "byte")),
            Came::Heard(heard) => format!("heard: {}", heard.text()),
            Came::Forgot => "the gateway knows nothing of the node".to_string(),
        }
    }

    /// The outcome, as a line of the cases says it.
    pub fn line(&self) -> String {
        let line = match self {
            Came::Ended(ended) => ended.line(),
            Came::Done | Came::Fresh | Came::Forgot => "done".to_string(),
            Came::Number(number) => format!("number {}", number),
            Came::Bytes(bytes) => format!("bytes {}", hex(bytes)),
            Came::Sends(packet) => format!("sends {}", hex(packet)),
            Came::Heard(heard) => format!("heard {}", heard.line()),
        };
        line.trim_end().to_string()
    }
}

/// What stands in a buffer until it is written.
pub const FILLING: u8 = 0x5C;

/// The proved node and its asking side: the setting is as the call leaves it.
pub fn proved(setting: &mut Setting, call: &Call) -> Came {
    let mut reply = [FILLING; MOST_PACKET];
    let (lent, busy) = (&mut setting.lent, setting.busy);
    match call {
        Call::Ask(asked) => gateway::ask(setting, asked),
        Call::Hear(asked, reply) => gateway::hear(setting, asked, reply),
        Call::Forget => {
            setting.known = Learned::new();
            Came::Forgot
        }
        Call::Packet(request) => {
            let ended = Ended::of(lent.packet(busy, request, &mut reply));
            Came::sent(ended, &reply)
        }
        Call::Result {
            function,
            due,
            failed,
            bytes,
        } => {
            let ran = proved_ran(*failed, bytes);
            let ended = Ended::of(lent.function_result(*function, *due, ran, &mut reply));
            Came::sent(ended, &reply)
        }
        Call::Store(variable, bytes) => {
            Came::of(lent.board_store(*variable, bytes), |()| Came::Done)
        }
        Call::Fresh => Came::of(lent.fresh_board(), |()| Came::Fresh),
        Call::Read {
            signed,
            variable,
            bytes,
        } => Came::of(
            proved_read(lent, *signed, VariableNumber(*variable), bytes),
            Came::Number,
        ),
        Call::Write {
            signed,
            variable,
            number,
            room,
        } => proved_write(lent, *signed, VariableNumber(*variable), *number, *room),
    }
}

fn proved_ran(failed: bool, bytes: &[u8]) -> Ran<'_> {
    match bytes.first() {
        Some(error) if failed => Ran::Failed(*error),
        _ => Ran::Gave(bytes),
    }
}

fn proved_read(
    lent: &Lent,
    signed: bool,
    variable: VariableNumber,
    bytes: &[u8],
) -> Result<i128, Refusal> {
    if signed {
        cruachvel::read_signed(&lent.variables, variable, bytes).map(i128::from)
    } else {
        cruachvel::read_unsigned(&lent.variables, variable, bytes).map(i128::from)
    }
}

fn proved_write(
    lent: &Lent,
    signed: bool,
    variable: VariableNumber,
    number: i128,
    room: usize,
) -> Came {
    let mut buffer = vec![FILLING; room];
    let written = if signed {
        cruachvel::write_signed(&lent.variables, variable, number as i64, &mut buffer)
    } else {
        cruachvel::write_unsigned(&lent.variables, variable, number as u64, &mut buffer)
    };
    Came::of(written, |()| Came::Bytes(buffer.clone()))
}

impl Setting {
    /// What a packet would end in, with nothing changed.
    pub fn would(&self, request: &[u8]) -> Ended {
        let mut lent = self.lent.clone();
        Ended::of(lent.packet(self.busy, request, &mut [0; MOST_PACKET]))
    }
}
