//! What a gateway hears in a reply, in memory of its own, so that both asking sides can tell it.
use super::bytes::{counted, hex, shown};
use super::commands::reply_name;
use super::things::{curve_text, function_text, listed, type_name, Curve};
use cruachvel::{Answer, Function, Gateway, ListedGroup, ListedVariable};

/// What a reply says to its request.
#[derive(Clone, Debug, PartialEq, Eq)]
pub enum Heard {
    Error(u8),
    Done,
    Version(Vec<u8>),
    Variables(Vec<Slot>),
    Groups(Vec<Slot>),
    Members(Vec<usize>),
    Curves(Vec<Curve>),
    /// Input and output of each.
    Functions(Vec<(usize, usize)>),
    Values(Vec<Value>),
    Block(Vec<u8>),
    Sum(Vec<u8>),
    Output(Vec<u8>),
    Failed(u8),
}

/// A record of the lists 03 and 05: whether the thing is writable, and its bytes or its members.
#[derive(Clone, Copy, Debug, PartialEq, Eq)]
pub struct Slot {
    pub writable: bool,
    pub count: usize,
}

/// A variable with its bytes, and the number that they mean by the board's kinds, if it is one.
#[derive(Clone, Debug, PartialEq, Eq)]
pub struct Value {
    pub variable: usize,
    pub bytes: Vec<u8>,
    pub number: Option<i128>,
}

impl Heard {
    /// What the proved side tells.
    pub fn of(answer: Answer, gateway: &Gateway) -> Heard {
        match answer {
            Answer::Error(error) => Heard::Error(error.code()),
            Answer::Done => Heard::Done,
            Answer::Version(version) => Heard::Version(version.to_vec()),
            Answer::Variables(records) => Heard::Variables(records.map(Slot::from).collect()),
            Answer::Groups(records) => Heard::Groups(records.map(Slot::from).collect()),
            Answer::Members(members) => Heard::Members(members.map(|member| member.0).collect()),
            Answer::Curves(records) => Heard::Curves(records.map(Curve::from).collect()),
            Answer::Functions(records) => {
                let record = |Function { input, output }| (input.into(), output.into());
                Heard::Functions(records.map(record).collect())
            }
            Answer::Values(values) => {
                let value = |(variable, bytes): (cruachvel::VariableNumber, &[u8])| Value {
                    variable: variable.0,
                    bytes: bytes.to_vec(),
                    number: gateway.number(variable, bytes).ok().map(i128::from),
                };
                Heard::Values(values.map(value).collect())
            }
            Answer::Block(bytes) => Heard::Block(bytes.to_vec()),
            Answer::Sum(sum) => Heard::Sum(sum.to_vec()),
            Answer::Output(output) => Heard::Output(output.to_vec()),
            Answer::Failed(error) => Heard::Failed(error),
        }
    }

    /// As a line of the cases says it, behind "heard".
    pub fn line(&self) -> String {
        match self {
            Heard::Error(code) => format!("error {:02X}", code),
            Heard::Done => "done".to_string(),
            Heard::Version(version) => format!("version {}", hex(version)),
            Heard::Variables(records) => format!("variables {}", slots_line(records)),
            Heard::Groups(records) => format!("groups {}", slots_line(records)),
            Heard::Members(members) => format!("members {}", listed(members.iter().copied())),
            Heard::Curves(records) => format!("curves {}", curves_line(records)),
            Heard::Functions(records) => format!("functions {}", functions_line(records)),
            Heard::Values(values) => {
                let value = |value: &Value| match value.number {
                    Some(number) => {
                        format!("{} {} is {}", value.variable, hex(&value.bytes), number)
                    }
                    None => format!("{} {}", value.variable, hex(&value.bytes)),
                };
                format!("values {}", commas(values.iter().map(value)))
            }
            Heard::Block(bytes) => format!("block {}", hex(bytes)),
            Heard::Sum(sum) => format!("sum {}", hex(sum)),
            Heard::Output(output) => format!("output {}", hex(output)),
            Heard::Failed(error) => format!("failed {:02X}", error),
        }
    }

    /// For a reader.
    pub fn text(&self) -> String {
        match self {
            Heard::Error(code) => format!("the error {:02X}, {}", code, reply_name(*code)),
            Heard::Done => "it is done".to_string(),
            Heard::Version(version) => format!("the version {}", hex(version)),
            Heard::Variables(records) => counted(records.len(), "variable"),
            Heard::Groups(records) => counted(records.len(), "group"),
            Heard::Members(members) if members.is_empty() => "the group is empty".to_string(),
            Heard::Members(members) => {
                format!("the group has {}", listed(members.iter().copied()))
            }
            Heard::Curves(records) => {
                let texts = records.iter().copied().map(curve_text);
                many(counted(records.len(), "curve"), texts)
            }
            Heard::Functions(records) => {
                let texts = records.iter().copied().map(function_text);
                many(counted(records.len(), "function"), texts)
            }
            Heard::Values(values) if values.is_empty() => "no values".to_string(),
            Heard::Values(values) => {
                let texts: Vec<String> = values.iter().map(Value::text).collect();
                texts.join("; ")
            }
            Heard::Block(bytes) => format!("the block is {}", shown(bytes)),
            Heard::Sum(sum) => format!("the sum is {}", hex(sum)),
            Heard::Output(output) => format!("the function gave {}", shown(output)),
            Heard::Failed(error) => format!("the function failed with {:02X}", error),
        }
    }
}

fn many(count: String, texts: impl Iterator<Item = String>) -> String {
    let texts: Vec<String> = texts.collect();
    match texts.is_empty() {
        true => count,
        false => format!("{}: {}", count, texts.join("; ")),
    }
}

impl Value {
    fn text(&self) -> String {
        let value = format!("variable {} is {}", self.variable, shown(&self.bytes));
        match self.number {
            Some(number) => format!("{}, the number {}", value, number),
            None => value,
        }
    }
}

impl From<ListedVariable> for Slot {
    fn from(listed: ListedVariable) -> Slot {
        Slot {
            writable: listed.writable,
            count: listed.size.into(),
        }
    }
}

impl From<ListedGroup> for Slot {
    fn from(listed: ListedGroup) -> Slot {
        Slot {
            writable: listed.writable,
            count: listed.members.into(),
        }
    }
}

impl From<cruachvel::Curve> for Curve {
    fn from(record: cruachvel::Curve) -> Curve {
        Curve {
            writable: record.writable == 1,
            size: record.block_size as usize,
            blocks: record.blocks as usize,
        }
    }
}

/// Variables or groups, as a line of the cases lists them: each as a board file's line has it, with its type first.
pub fn slots_line(records: &[Slot]) -> String {
    let record = |slot: &Slot| format!("{} {}", type_name(slot.writable), slot.count);
    commas(records.iter().map(record))
}

/// The same of curves.
pub fn curves_line(records: &[Curve]) -> String {
    let record = |curve: &Curve| {
        let kind = type_name(curve.writable);
        format!("{} {} {}", kind, curve.size, curve.blocks)
    };
    commas(records.iter().map(record))
}

/// The same of functions.
pub fn functions_line(records: &[(usize, usize)]) -> String {
    let record = |(input, output): &(usize, usize)| format!("{} {}", input, output);
    commas(records.iter().map(record))
}

fn commas(words: impl Iterator<Item = String>) -> String {
    words.collect::<Vec<String>>().join(", ")
}
