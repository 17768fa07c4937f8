//! Carries out what a gateway is told in a case by the second asking side.
use super::nodes::refusal;
use crate::second_asking::{self, Learned, Masking, Request};
use crate::whatif::asked::Asked;
use crate::whatif::commands::Field;
use crate::whatif::ended::Came;
use crate::whatif::heard::{Heard, Slot, Value};
use crate::whatif::things::Curve;
use crate::whatif::Setting;
use cruachvel::{Function, Groups, REPLY_ROOM};

pub fn ask(asked: &Asked) -> Came {
    let (to, request) = (asked.destination(), request(asked));
    let sent = second_asking::ask(to, request, asked.bytes(), REPLY_ROOM);
    Came::of(sent.map_err(refusal), Came::Sends)
}

pub fn hear(setting: &mut Setting, asked: &Asked, reply: &[u8]) -> Came {
    let mut known = known(setting);
    let (to, request) = (asked.destination(), request(asked));
    let heard = second_asking::hear(&known, to, request, reply);
    if let Ok(heard) = &heard {
        second_asking::learn(&mut known, request, asked.bytes(), heard);
        setting.known = kept(&known);
    }
    let kinds = setting.lent.variables.iter().map(|record| record.kind);
    let kinds: Vec<u8> = kinds.collect();
    let told = heard.map(|heard| told(heard, &known, &kinds));
    Came::of(told.map_err(refusal), Came::Heard)
}

fn request(asked: &Asked) -> Request {
    let number = |field: Field| asked.number(field).unwrap_or_default();
    let (variable, group) = (number(Field::Variable), number(Field::Group));
    let (curve, block) = (number(Field::Curve), number(Field::Block));
    match asked.command().code {
        0x00 => Request::Version,
        0x02 => Request::ListVariables,
        0x04 => Request::ListGroups,
        0x06 => Request::ShowGroup(group),
        0x08 => Request::ListCurves,
        0x0A => Request::ReadSum(curve),
        0x0C => Request::ListFunctions,
        0x10 => Request::ReadVariable(variable),
        0x12 => Request::ReadGroup(group),
        0x20 => Request::WriteVariable(variable),
        0x22 => Request::WriteGroup(group),
        0x24 => Request::MaskVariable(variable, masking(asked)),
        0x26 => Request::MaskGroup(group, masking(asked)),
        0x28 => Request::WriteRead {
            written: variable,
            read: number(Field::VariableRead),
        },
        0x30 => Request::MakeGroup,
        0x32 => Request::RemoveGroups,
        0x40 => Request::ReadBlock { curve, block },
        0x41 => Request::WriteBlock { curve, block },
        0x42 => Request::RenewSum(curve),
        _ => Request::RunFunction(number(Field::Function)),
    }
}

fn masking(asked: &Asked) -> Masking {
    match asked.masking() {
        cruachvel::Masking::Set => Masking::Set,
        cruachvel::Masking::Or => Masking::Or,
        cruachvel::Masking::Clear => Masking::Clear,
        cruachvel::Masking::Toggle => Masking::Toggle,
        cruachvel::Masking::Xor => Masking::Xor,
        cruachvel::Masking::And => Masking::And,
    }
}

// The learned table as the second side has it.
fn known(setting: &Setting) -> Learned {
    let seen = setting.seen();
    let variables = seen.variables.iter();
    let curves = seen.curves.chunks_exact(3);
    let functions = seen.functions.chunks_exact(2);
    let Groups { count, sets } = seen.groups;
    Learned {
        variables: variables.map(|v| (v.writable == 1, v.size)).collect(),
        groups: sets.into_iter().take(count as usize).collect(),
        curves: curves.map(|c| (c[0], c[1], c[2])).collect(),
        functions: functions.map(|f| (f[0], f[1])).collect(),
    }
}

// The same as a setting keeps it.
fn kept(known: &Learned) -> cruachvel::Learned {
    let mut kept = cruachvel::Learned::new();
    kept.variables = known.variables.len() as u64;
    kept.groups = known.groups.len() as u64;
    kept.curves = known.curves.len() as u64;
    kept.functions = known.functions.len() as u64;
    for (place, (writable, size)) in known.variables.iter().enumerate() {
        kept.writable |= u64::from(*writable) << place;
        kept.sizes[place] = *size;
    }
    kept.sets[..known.groups.len()].copy_from_slice(&known.groups);
    for (shape, (writable, block_size, blocks)) in kept.shapes.iter_mut().zip(&known.curves) {
        *shape = cruachvel::Curve {
            writable: *writable,
            block_size: *block_size,
            blocks: *blocks,
        };
    }
    for (call, (input, output)) in kept.calls.iter_mut().zip(&known.functions) {
        *call = Function {
            input: *input,
            output: *output,
        };
    }
    kept
}

fn told(heard: second_asking::Heard, known: &Learned, kinds: &[u8]) -> Heard {
    match heard {
        second_asking::Heard::Error(code) => Heard::Error(code),
        second_asking::Heard::Done => Heard::Done,
        second_asking::Heard::Version(version) => Heard::Version(version.to_vec()),
        second_asking::Heard::Variables(records) => Heard::Variables(slots(&records)),
        second_asking::Heard::Groups(records) => Heard::Groups(slots(&records)),
        second_asking::Heard::Members(ids) => {
            Heard::Members(ids.into_iter().map(usize::from).collect())
        }
        second_asking::Heard::Curves(records) => {
            let curve = |(sort, size, blocks): (u32, u32, u32)| Curve {
                writable: sort == 1,
                size: size as usize,
                blocks: blocks as usize,
            };
            Heard::Curves(records.into_iter().map(curve).collect())
        }
        second_asking::Heard::Functions(records) => {
            let function = |(input, output): (u8, u8)| (input.into(), output.into());
            Heard::Functions(records.into_iter().map(function).collect())
        }
        second_asking::Heard::Values(values) => {
            let value = |(variable, bytes): (usize, Vec<u8>)| {
                let number = number(known, kinds, variable, &bytes);
                Value {
                    variable,
                    bytes,
                    number,
                }
            };
            Heard::Values(values.into_iter().map(value).collect())
        }
        second_asking::Heard::Block(bytes) => Heard::Block(bytes),
        second_asking::Heard::Sum(sum) => Heard::Sum(sum.to_vec()),
        second_asking::Heard::Output(output) => Heard::Output(output),
        second_asking::Heard::Failed(error) => Heard::Failed(error),
    }
}

fn slots(records: &[(bool, u8)]) -> Vec<Slot> {
    let slot = |(writable, count): &(bool, u8)| Slot {
        writable: *writable,
        count: usize::from(*count),
    };
    records.iter().map(slot).collect()
}

fn number(known: &Learned, kinds: &[u8], variable: usize, bytes: &[u8]) -> Option<i128> {
    let signed = second_asking::signed(known, kinds, variable, bytes).map(i128::from);
    let unsigned = || second_asking::unsigned(known, kinds, variable, bytes).map(i128::from);
    signed.or_else(|_| unsigned()).ok()
}
