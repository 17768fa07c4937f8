//! A board for the page: what it holds now, and the words of its lines in a board file.
use suite::boards;
use suite::lent::{full_lengths, members, Lent};
use suite::whatif::bytes::{counted, hex, shown};
use suite::whatif::changes::value_text;
use suite::whatif::json::{array, object, string};
use suite::whatif::table::filled;
use suite::whatif::things::{
    curve, function, function_text, group, group_text, kind_name, length_words, lent_curve_text,
    listed, number, sum_text, type_name, value, variable_text, Setting,
};

// More words of lengths than this are not shown, and more lengths don't get a line each.
const SHOWN: usize = 16;

/// Board A of 01, which is there before any other.
pub fn board_a() -> Setting {
    Setting::new(boards::board_a(), 0)
}

/// What the board has, thing by thing: its name, what it is, what it holds, and of a variable whether it is busy.
pub fn things(setting: &Setting) -> String {
    let lent = &setting.lent;
    let mut things = vec![thing("address", &address_text(lent), None)];
    things.extend((0..lent.variables.len()).map(|number| variable(setting, number)));
    things.extend((0..).map_while(|number| group_thing(lent, number)));
    let curves = (0..).map_while(|number| curve_things(lent, number));
    things.extend(curves.flatten());
    things.extend((0..).map_while(|number| function_thing(lent, number)));
    object([("things", array(things))])
}

fn thing(name: &str, what: &str, holds: Option<String>) -> String {
    let holds = holds.map(|holds| ("holds", string(&holds)));
    object(
        [("name", string(name)), ("what", string(what))]
            .into_iter()
            .chain(holds),
    )
}

fn address_text(lent: &Lent) -> String {
    let joined = members(lent.address.multicast.reverse_bits().into()).map(|bit| 248 + bit);
    format!("{}; multicast {}", lent.address.own, listed(joined))
}

fn variable(setting: &Setting, number: usize) -> String {
    let lent = &setting.lent;
    let busy = number < 64 && setting.busy >> number & 1 == 1;
    let holds = value_text(lent, number, value(lent, number));
    object([
        ("name", string(&format!("variable {}", number))),
        ("what", string(&variable_text(&lent.variables[number]))),
        ("holds", string(&holds)),
        ("number", number.to_string()),
        ("busy", busy.to_string()),
    ])
}

fn group_thing(lent: &Lent, number: usize) -> Option<String> {
    let what = group_text(group(lent, number)?);
    Some(thing(&format!("group {}", number), &what, None))
}

// A curve, the lengths of its blocks and its sum.
fn curve_things(lent: &Lent, number: usize) -> Option<[String; 3]> {
    let what = lent_curve_text(lent, number)?;
    let name = format!("curve {}", number);
    let (bytes, sum) = (shown(&lent.curve_bytes(number)), shown(lent.sum(number)));
    let lengths = shown_lengths(lent.curve_lengths(number));
    let about = sum_text(number, lent.is_stale(number));
    Some([
        thing(&name, &what, Some(bytes)),
        thing(
            &format!("lengths of {}", name),
            "bytes in each of its blocks",
            Some(lengths),
        ),
        thing(&format!("sum of {}", name), &about, Some(sum)),
    ])
}

fn shown_lengths(lengths: &[u16]) -> String {
    let words = length_words(lengths);
    if words.len() <= SHOWN {
        return words.join(" ");
    }
    let count = counted(lengths.len(), "block");
    format!("{} .. ({})", words[..SHOWN].join(" "), count)
}

fn function_thing(lent: &Lent, number: usize) -> Option<String> {
    let what = function_text(function(lent, number)?);
    Some(thing(&format!("function {}", number), &what, None))
}

/// The words of the lines that describe a board, by the name that starts the line.
pub fn form(setting: &Setting) -> String {
    let lent = &setting.lent;
    let mut fitted = lent.clone();
    fitted.refit();
    let functions = lent.functions.chunks(2);
    object([
        ("address", rows([vec![lent.address.own.to_string()]])),
        ("multicast", rows([vec![hex(&[lent.address.multicast])]])),
        (
            "variable",
            rows((0..lent.variables.len()).map(|number| variable_words(lent, number))),
        ),
        (
            "curve",
            rows((0..).map_while(|number| curve_words(lent, number))),
        ),
        ("length", rows(given_lengths(lent).unwrap_or_default())),
        ("sum", rows(given_sums(lent, &fitted))),
        (
            "function",
            rows(functions.map(|sizes| sizes.iter().map(u8::to_string).collect())),
        ),
        ("group", rows(made_groups(lent))),
        ("busy", rows([vec![listed(members(setting.busy))]])),
        ("values", rows(odd_store(&lent.values, &fitted.values))),
        ("blocks", rows(odd_store(&lent.blocks, &fitted.blocks))),
        ("lengths", rows(all_lengths(lent))),
        ("sums", rows(odd_store(&lent.sums, &fitted.sums))),
    ])
}

fn rows(rows: impl IntoIterator<Item = Vec<String>>) -> String {
    let row = |words: Vec<String>| array(words.iter().map(|word| string(word)));
    array(rows.into_iter().map(row))
}

fn variable_words(lent: &Lent, variable: usize) -> Vec<String> {
    let record = &lent.variables[variable];
    let bytes = value(lent, variable);
    let (given, holds) = match number(lent, variable, bytes) {
        Some(number) => ("value", number.to_string()),
        None if bytes.len() == usize::from(record.size) => ("bytes", hex(bytes)),
        None => ("bytes", String::new()),
    };
    vec![
        type_name(record.writable == 1).to_string(),
        record.size.to_string(),
        kind_name(record.kind).replace(" endian", ""),
        given.to_string(),
        holds,
    ]
}

// Zeros at the end need not be said, stale bytes need.
fn curve_words(lent: &Lent, number: usize) -> Option<Vec<String>> {
    let record = curve(lent, number)?;
    let bytes = lent.curve_room(number);
    let said = bytes
        .iter()
        .rposition(|byte| *byte != 0)
        .map_or(0, |last| last + 1);
    Some(vec![
        type_name(record.writable).to_string(),
        record.size.to_string(),
        record.blocks.to_string(),
        hex(&bytes[..said]),
    ])
}

// The blocks that are not full, each with its curve, number and length; none if they are too many for a line each, or if there is not one
// length for each block.
fn given_lengths(lent: &Lent) -> Option<Vec<Vec<String>>> {
    let filled = filled(lent);
    let mut rows = Vec::new();
    for curve in 0..lent.curves.len() / 3 {
        let full = filled.curve_lengths(curve);
        let blocks = lent.curve_lengths(curve).iter().zip(full).enumerate();
        for (block, (length, _)) in blocks.filter(|(_, (length, full))| length != full) {
            rows.push([curve.to_string(), block.to_string(), length.to_string()].to_vec());
        }
    }
    let one_each = lent.lengths.len() == full_lengths(&lent.curves).len();
    (one_each && rows.len() <= SHOWN).then_some(rows)
}

// Lengths that have no line each.
fn all_lengths(lent: &Lent) -> Option<Vec<String>> {
    match given_lengths(lent) {
        Some(_) => None,
        None => Some(vec![length_words(&lent.lengths).join(" ")]),
    }
}

// The sums that are not as a board file has them where it says none. Of another length than the records make, they have a line of their own.
fn given_sums(lent: &Lent, fitted: &Lent) -> Vec<Vec<String>> {
    if lent.sums.len() != fitted.sums.len() {
        return Vec::new();
    }
    let given = |number: &usize| lent.is_stale(*number);
    let words = |number: usize| vec![number.to_string(), hex(lent.sum(number))];
    (0..lent.curves.len() / 3)
        .filter(given)
        .map(words)
        .collect()
}

// Of more groups than there is room for, nothing is known but how many they are.
fn made_groups(lent: &Lent) -> Vec<Vec<String>> {
    let set = |place: u64| lent.groups.sets.get(place as usize).copied().unwrap_or(0);
    (0..lent.groups.count)
        .map(|place| vec![listed(members(set(place)))])
        .collect()
}

// A store needs a line of its own where it has another length than the records make.
fn odd_store(store: &[u8], fitted: &[u8]) -> Option<Vec<String>> {
    (store.len() != fitted.len()).then(|| vec![hex(store)])
}
