//! Calls as lines of text: how docs/what-if.cases and whatif's input write them.
use super::asked::Asked;
use super::bytes::{bytes, hex};
use super::HELP;
use std::str::FromStr;

/// A call of the node, or of the gateway that asks it.
#[derive(Clone, Debug, PartialEq, Eq)]
pub enum Call {
    Packet(Vec<u8>),
    Store(usize, Vec<u8>),
    Read {
        signed: bool,
        variable: usize,
        bytes: Vec<u8>,
    },
    Write {
        signed: bool,
        variable: usize,
        number: i128,
        room: usize,
    },
    Result {
        function: usize,
        due: bool,
        failed: bool,
        bytes: Vec<u8>,
    },
    Fresh,
    Ask(Asked),
    /// A reply to this request.
    Hear(Asked, Vec<u8>),
    Forget,
}

/// The keywords of calls, in the order of the help.
const CALLS: [&str; 9] = [
    "packet", "store", "read", "write", "result", "fresh", "ask", "hear", "forget",
];

/// A line that does something: a call, or the variables that are busy from then on.
#[derive(Clone, Debug, PartialEq, Eq)]
pub enum Line {
    Call(Call),
    Busy(u64),
}

impl Line {
    /// Whether this keyword starts such a line.
    pub fn starts(keyword: &str) -> bool {
        keyword == "busy" || CALLS.contains(&keyword)
    }

    /// The line that this keyword starts, or none if it starts no such line. What is heard is the reply to what was asked last.
    pub fn of(keyword: &str, rest: &str, asked: Option<&Asked>) -> Result<Option<Line>, String> {
        let words: Vec<&str> = rest.split_whitespace().collect();
        match keyword {
            "busy" => Ok(Some(Line::Busy(variables(rest)?))),
            "hear" => Ok(Some(Line::Call(hear(asked, &words)?))),
            keyword if CALLS.contains(&keyword) => Ok(Some(Line::Call(call(keyword, &words)?))),
            _ => Ok(None),
        }
    }

    /// The same, or a packet where only bytes stand.
    pub fn or_packet(text: &str, asked: Option<&Asked>) -> Result<Line, String> {
        let text = text.trim();
        let (keyword, rest) = text.split_once(char::is_whitespace).unwrap_or((text, ""));
        match Line::of(keyword, rest, asked)? {
            Some(line) => Ok(line),
            None if text.starts_with(|letter: char| letter.is_ascii_hexdigit()) => {
                Ok(Line::Call(Call::Packet(bytes(text)?)))
            }
            None => Err(format!(
                "{:?} is neither bytes in hex nor {} or busy",
                keyword,
                CALLS.join(", ")
            )),
        }
    }
}

impl Call {
    /// The keyword, and what follows it.
    pub fn words(&self) -> (&'static str, String) {
        match self {
            Call::Packet(bytes) => ("packet", hex(bytes)),
            Call::Store(variable, bytes) => ("store", format!("{} {}", variable, hex(bytes))),
            Call::Read {
                signed,
                variable,
                bytes,
            } => (
                "read",
                format!("{} {} {}", sign_name(*signed), variable, hex(bytes)),
            ),
            Call::Write {
                signed,
                variable,
                number,
                room,
            } => {
                let sign = sign_name(*signed);
                let rest = format!("{} {} {} into {}", sign, variable, number, room);
                ("write", rest)
            }
            Call::Result {
                function,
                due,
                failed,
                bytes,
            } => {
                let (due, ran) = (due_name(*due), if *failed { "failed" } else { "gave" });
                let rest = format!("{} {} {} {}", function, due, ran, hex(bytes));
                ("result", rest)
            }
            Call::Fresh => ("fresh", String::new()),
            Call::Ask(asked) => ("ask", asked.words()),
            Call::Hear(_, reply) => ("hear", hex(reply)),
            Call::Forget => ("forget", String::new()),
        }
    }
}

pub fn sign_name(signed: bool) -> &'static str {
    if signed {
        "signed"
    } else {
        "unsigned"
    }
}

pub fn due_name(due: bool) -> &'static str {
    if due {
        "due"
    } else {
        "quiet"
    }
}

/// The set of variables that a text names, with spaces or commas between them.
pub fn variables(text: &str) -> Result<u64, String> {
    let names = text.split(|letter: char| letter.is_whitespace() || letter == ',');
    let bit = |name: &str| {
        let bit = name.parse().ok().and_then(|name| 1u64.checked_shl(name));
        bit.ok_or_else(|| format!("a variable is a number from 0 to 63, and not {:?}", name))
    };
    names
        .filter(|name| !name.is_empty())
        .try_fold(0, |set, name| Ok(set | bit(name)?))
}

fn call(keyword: &str, words: &[&str]) -> Result<Call, String> {
    match (keyword, words) {
        ("packet", words) => Ok(Call::Packet(joined(words)?)),
        ("store", [variable, words @ ..]) => Ok(Call::Store(number(variable)?, joined(words)?)),
        ("read", [kind @ ("signed" | "unsigned"), variable, words @ ..]) => Ok(Call::Read {
            signed: *kind == "signed",
            variable: number(variable)?,
            bytes: joined(words)?,
        }),
        ("write", [kind @ ("signed" | "unsigned"), variable, value, "into", room]) => {
            Ok(Call::Write {
                signed: *kind == "signed",
                variable: number(variable)?,
                number: whole_number(kind, value)?,
                room: number::<u16>(room)?.into(),
            })
        }
        ("result", [function, due @ ("due" | "quiet"), ran @ ("gave" | "failed"), words @ ..]) => {
            result(function, *due == "due", *ran == "failed", joined(words)?)
        }
        ("fresh", []) => Ok(Call::Fresh),
        ("ask", words) => Ok(Call::Ask(Asked::of_words(words)?)),
        ("forget", []) => Ok(Call::Forget),
        _ => Err(format!("a {} is written so: {}", keyword, form(keyword))),
    }
}

// How the help writes a call.
fn form(keyword: &str) -> &'static str {
    let mut lines = HELP.lines().map(str::trim_start);
    let line = lines.find(|line| line.split(' ').next() == Some(keyword));
    line.and_then(|line| line.split("  ").next())
        .unwrap_or_default()
}

fn hear(asked: Option<&Asked>, words: &[&str]) -> Result<Call, String> {
    let asked = asked.ok_or("a reply is heard to what was asked before it, and nothing was")?;
    Ok(Call::Hear(asked.clone(), joined(words)?))
}

fn result(function: &str, due: bool, failed: bool, bytes: Vec<u8>) -> Result<Call, String> {
    if failed && bytes.len() != 1 {
        return Err("a function fails with one error byte".to_string());
    }
    Ok(Call::Result {
        function: number(function)?,
        due,
        failed,
        bytes,
    })
}

/// The number that a word is.
pub fn number<T: FromStr>(word: &str) -> Result<T, String> {
    word.parse()
        .map_err(|_| format!("{:?} is no number that can stand here", word))
}

// A number that the call can be handed.
fn whole_number(kind: &str, word: &str) -> Result<i128, String> {
    if kind == "signed" {
        number::<i64>(word).map(i128::from)
    } else {
        number::<u64>(word).map(i128::from)
    }
}

fn joined(words: &[&str]) -> Result<Vec<u8>, String> {
    bytes(&words.join(" "))
}
