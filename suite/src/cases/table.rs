//! The cases as a table in C, for ctest/cases.c: each call of the node with what came of it, and a digest of the state that it left. What a
//! gateway sends and hears is left out.
use super::file::{Act, Case};
use super::nodes::Node;
use super::Boards;
use crate::lent::Lent;
use crate::whatif::call::Call;
use crate::whatif::ended::{Came, Ended};
use cruachvel::REPLY_ROOM;
use std::fmt::Display;

/// The table, or why there is none. Whether the cases hold is for others to see.
pub fn table(cases: &[Case], boards: &Boards, node: Node) -> Result<String, String> {
    let (mut text, mut rows) = (String::new(), Vec::new());
    for case in cases.iter().filter(|case| case.acts.iter().any(of_node)) {
        let mut setting = case.setting(boards)?;
        let board = board(&mut text, case.line, &setting.lent);
        let mut acts = Vec::new();
        for act in case.acts.iter().filter(|act| of_node(act)) {
            setting.busy = act.busy.unwrap_or(setting.busy);
            let busy = setting.busy;
            let came = node(&mut setting, &act.call);
            let (call, came) = (call(&mut text, act), came_to(&mut text, act, &came));
            let left = digest(&setting.lent);
            acts.push(format!(
                "{{{}, {}u, UINT64_C({}), {}, UINT64_C({})}}",
                call, act.line, busy, came, left
            ));
        }
        let acts = array(
            &mut text,
            "struct act",
            &format!("acts_{}", case.line),
            &acts,
        );
        rows.push(format!("{{{}, {}}}", board, acts));
    }
    array(&mut text, "struct whole_case", "cases", &rows);
    Ok(text)
}

fn of_node(act: &Act) -> bool {
    !matches!(act.call, Call::Ask(_) | Call::Hear(..) | Call::Forget)
}

// Writes an array, and gives it with its length; of nothing, NULL and 0.
fn array<T: Display>(text: &mut String, kind: &str, name: &str, items: &[T]) -> String {
    if items.is_empty() {
        return "NULL, 0".to_string();
    }
    let items: Vec<String> = items.iter().map(T::to_string).collect();
    *text += &format!("static const {} {}[] = {{\n", kind, name);
    for line in items.chunks(16) {
        *text += &format!("    {},\n", line.join(", "));
    }
    *text += "};\n";
    format!("{}, {}", name, items.len())
}

// A store, of which the zeros at its end are not written out.
fn store(text: &mut String, name: &str, bytes: &[u8]) -> String {
    let zeros = bytes.iter().rev().take_while(|byte| **byte == 0).count();
    let start = array(text, "uint8_t", name, &bytes[..bytes.len() - zeros]);
    format!("{}, {}", start, bytes.len())
}

fn board(text: &mut String, line: usize, lent: &Lent) -> String {
    let name = |what: &str| format!("{}_{}", what, line);
    let records: Vec<String> = lent
        .variables
        .iter()
        .map(|v| format!("{{{}, {}, {}}}", v.writable, v.size, v.kind))
        .collect();
    let variables = array(text, "struct bsmp_variable", &name("variables"), &records);
    let curves = array(text, "uint32_t", &name("curves"), &lent.curves);
    let functions = array(text, "uint8_t", &name("functions"), &lent.functions);
    let values = store(text, &name("values"), &lent.values);
    let blocks = store(text, &name("blocks"), &lent.blocks);
    let lengths = array(text, "uint16_t", &name("lengths"), &lent.lengths);
    let sums = store(text, &name("sums"), &lent.sums);
    let sets: Vec<String> = lent
        .groups
        .sets
        .iter()
        .map(|set| format!("UINT64_C({})", set))
        .collect();
    format!(
        "{}, {}, {}, {}, {}, {}, {}, {{{}, {{{}}}}}, {}, {}",
        variables,
        curves,
        functions,
        values,
        blocks,
        lengths,
        sums,
        lent.groups.count,
        sets.join(", "),
        lent.address.own,
        lent.address.multicast
    )
}

// A call as the table has it: what the entry has no use for is 0, false or empty.
struct Row<'a> {
    entry: &'static str,
    thing: usize,
    due: bool,
    failed: bool,
    number: u64,
    given: &'a [u8],
    room: usize,
}

impl<'a> Row<'a> {
    fn new(entry: &'static str, thing: usize, given: &'a [u8]) -> Row<'a> {
        Row {
            entry,
            thing,
            due: false,
            failed: false,
            number: 0,
            given,
            room: 0,
        }
    }

    fn of(call: &'a Call) -> Row<'a> {
        match call {
            Call::Packet(bytes) => Row {
                room: REPLY_ROOM,
                ..Row::new("PACKET", 0, bytes)
            },
            Call::Store(variable, bytes) => Row::new("STORE", *variable, bytes),
            Call::Fresh => Row::new("FRESH", 0, &[]),
            Call::Read {
                signed: true,
                variable,
                bytes,
            } => Row::new("READ_SIGNED", *variable, bytes),
            Call::Read {
                variable, bytes, ..
            } => Row::new("READ_UNSIGNED", *variable, bytes),
            Call::Write {
                signed,
                variable,
                number,
                room,
            } => Row::of_write(*signed, *variable, *number as u64, *room),
            Call::Result {
                function,
                due,
                failed,
                bytes,
            } => Row {
                due: *due,
                failed: *failed,
                room: REPLY_ROOM,
                ..Row::new("RESULT", *function, bytes)
            },
            Call::Ask(_) | Call::Hear(..) | Call::Forget => unreachable!("left out"),
        }
    }

    fn of_write(signed: bool, variable: usize, number: u64, room: usize) -> Row<'a> {
        let entry = if signed {
            "WRITE_SIGNED"
        } else {
            "WRITE_UNSIGNED"
        };
        Row {
            number,
            room,
            ..Row::new(entry, variable, &[])
        }
    }
}

fn call(text: &mut String, act: &Act) -> String {
    let row = Row::of(&act.call);
    let given = array(text, "uint8_t", &format!("given_{}", act.line), row.given);
    format!(
        "{}, {}, {}, {}, UINT64_C({}), {}, {}",
        row.entry, row.thing, row.due, row.failed, row.number, given, row.room
    )
}

// How the call ended, the refusal, the function, due, the number, and the bytes: of a reply, of a function's input, or of a number.
fn came_to(text: &mut String, act: &Act, came: &Came) -> String {
    let name = format!("came_{}", act.line);
    match came {
        Came::Ended(Ended::Reply(reply)) => {
            format!(
                "REPLY, 0, 0, false, 0, {}",
                array(text, "uint8_t", &name, reply)
            )
        }
        Came::Ended(Ended::Silence) => "SILENCE, 0, 0, false, 0, NULL, 0".to_string(),
        Came::Ended(Ended::Run {
            function,
            input,
            due,
        }) => {
            let input = array(text, "uint8_t", &name, input);
            format!("RUN, 0, {}, {}, 0, {}", function, due, input)
        }
        Came::Ended(Ended::Refused(refusal)) => {
            format!("REFUSED, {}, 0, false, 0, NULL, 0", refusal.number())
        }
        Came::Done | Came::Fresh => "DONE, 0, 0, false, 0, NULL, 0".to_string(),
        Came::Sends(_) | Came::Heard(_) | Came::Forgot => unreachable!("left out"),
        Came::Number(number) => {
            format!("DONE, 0, 0, false, UINT64_C({}), NULL, 0", *number as u64)
        }
        Came::Bytes(bytes) => {
            format!(
                "DONE, 0, 0, false, 0, {}",
                array(text, "uint8_t", &name, bytes)
            )
        }
    }
}

// FNV-1a over the stores, the lengths, the sums and the group table's numbers, least significant byte first; ctest/cases.c has the same.
fn digest(lent: &Lent) -> u64 {
    let groups = [&[lent.groups.count], &lent.groups.sets[..]].concat();
    let groups = groups.iter().flat_map(|number| number.to_le_bytes());
    let lengths = lent.lengths.iter().flat_map(|length| length.to_le_bytes());
    let stores = lent.values.iter().chain(&lent.blocks).copied();
    let bytes = stores
        .chain(lengths)
        .chain(lent.sums.iter().copied())
        .chain(groups);
    bytes.fold(0xCBF2_9CE4_8422_2325, |digest, byte| {
        (digest ^ u64::from(byte)).wrapping_mul(0x0100_0000_01B3)
    })
}
