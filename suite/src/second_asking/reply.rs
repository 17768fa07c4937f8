//! Replies: what each of them says to its request.
#![forbid(unsafe_code)]

use super::lists;
use super::packet::{is_destination, is_multicast, opened};
use super::refusals::{BAD_DESTINATION, REPLY_DOES_NOT_FIT, TABLE_UNUSABLE};
use super::request::Request;
use super::table::Learned;

const VERSION: [u8; 3] = [0x02, 0x14, 0x00];

/// What a reply says.
#[derive(Clone, Debug, PartialEq, Eq)]
pub enum Heard {
    /// E1 to E8.
    Error(u8),
    Done,
    Version([u8; 3]),
    /// Writable, size.
    Variables(Vec<(bool, u8)>),
    /// Writable, member count.
    Groups(Vec<(bool, u8)>),
    /// The variables of a group, ascending.
    Members(Vec<u8>),
    /// Type, block size, blocks.
    Curves(Vec<(u32, u32, u32)>),
    /// Input, output.
    Functions(Vec<(u8, u8)>),
    /// Each variable with its bytes, ascending.
    Values(Vec<(usize, Vec<u8>)>),
    Block(Vec<u8>),
    Sum([u8; 16]),
    Output(Vec<u8>),
    /// The function's error byte.
    Failed(u8),
}

/// What a reply says to a request that went to the destination; refusals 1, 2, 4, 5, 13. Where the table gives no size, it may be anything.
pub fn hear(
    learned: &Learned,
    destination: u8,
    request: Request,
    reply: &[u8],
) -> Result<Heard, u8> {
    if request.table_counts() && !learned.is_usable() {
        return Err(TABLE_UNUSABLE);
    }
    if !is_destination(destination) {
        return Err(BAD_DESTINATION);
    }
    let (command, payload) = opened(reply)?;
    if is_multicast(destination) {
        return Err(REPLY_DOES_NOT_FIT);
    }
    said(learned, request, command, payload).ok_or(REPLY_DOES_NOT_FIT)
}

/// None if the message doesn't fit the request.
fn said(learned: &Learned, request: Request, command: u8, payload: &[u8]) -> Option<Heard> {
    match (request, command) {
        (_, 0xE1..=0xE8) => bare(payload, Heard::Error(command)),
        (_, 0xE0) if request.is_only_done() => bare(payload, Heard::Done),
        (Request::Version, 0x01) => version(payload),
        (Request::ListVariables, 0x03) => lists::variables(payload).map(Heard::Variables),
        (Request::ListGroups, 0x05) => lists::groups(payload).map(Heard::Groups),
        (Request::ShowGroup(group), 0x07) => lists::members(group, payload).map(Heard::Members),
        (Request::ListCurves, 0x09) => lists::curves(payload).map(Heard::Curves),
        (Request::ReadSum(curve), 0x0B) => sum(learned, curve, payload),
        (Request::ListFunctions, 0x0D) => lists::functions(payload).map(Heard::Functions),
        (Request::ReadVariable(number), 0x11) => values(learned, &[number], payload),
        (Request::WriteRead { read, .. }, 0x11) => values(learned, &[read], payload),
        (Request::ReadGroup(group), 0x13) => values(learned, &learned.members(group)?, payload),
        (Request::ReadBlock { curve, block }, 0x41) => block_bytes(learned, curve, block, payload),
        (Request::RunFunction(function), 0x51) => output(learned, function, payload),
        (Request::RunFunction(function), 0x53) => failed(learned, function, payload),
        _ => None,
    }
}

fn bare(payload: &[u8], heard: Heard) -> Option<Heard> {
    payload.is_empty().then_some(heard)
}

fn version(payload: &[u8]) -> Option<Heard> {
    (payload == VERSION).then_some(Heard::Version(VERSION))
}

fn sum(learned: &Learned, curve: usize, payload: &[u8]) -> Option<Heard> {
    learned.curves.get(curve)?;
    payload.try_into().ok().map(Heard::Sum)
}

/// These variables' values, one behind the other and nothing else.
fn values(learned: &Learned, numbers: &[usize], payload: &[u8]) -> Option<Heard> {
    let mut rest = payload;
    let mut values = Vec::new();
    for &number in numbers {
        let &(_, size) = learned.variables.get(number)?;
        let value = rest.get(..usize::from(size))?;
        rest = rest.get(usize::from(size)..)?;
        values.push((number, value.to_vec()));
    }
    bare(rest, Heard::Values(values))
}

/// A block's bytes behind its curve and number. The number isn't held against the table: the node knows how many blocks it has.
fn block_bytes(learned: &Learned, curve: usize, block: usize, payload: &[u8]) -> Option<Heard> {
    let &(_, block_size, _) = learned.curves.get(curve)?;
    match payload {
        [told_curve, high, low, bytes @ ..] => {
            let told_block = u16::from_be_bytes([*high, *low]);
            let fits = usize::from(*told_curve) == curve
                && usize::from(told_block) == block
                && (1..=block_size as usize).contains(&bytes.len());
            fits.then(|| Heard::Block(bytes.to_vec()))
        }
        _ => None,
    }
}

fn output(learned: &Learned, function: usize, payload: &[u8]) -> Option<Heard> {
    let &(_, output) = learned.functions.get(function)?;
    (payload.len() == usize::from(output)).then(|| Heard::Output(payload.to_vec()))
}

fn failed(learned: &Learned, function: usize, payload: &[u8]) -> Option<Heard> {
    learned.functions.get(function)?;
    match payload {
        [error] => Some(Heard::Failed(*error)),
        _ => None,
    }
}
