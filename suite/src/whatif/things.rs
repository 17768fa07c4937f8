//! A board as messages see it: its variables, groups, curves and functions by number, and what they are called.
use super::bytes::{counted, grouped};
use crate::lent::{members, Lent};
use cruachvel::{Kind, Learned, Variable, VariableNumber};

/// A board with its busy marks, and what a gateway knows of it.
#[derive(Clone, Debug, PartialEq, Eq)]
pub struct Setting {
    pub lent: Lent,
    pub busy: u64,
    pub known: Learned,
}

/// A group that exists.
#[derive(Clone, Copy, Debug, PartialEq, Eq)]
pub struct Group {
    pub set: u64,
    pub writable: bool,
}

/// A curve that exists.
#[derive(Clone, Copy, Debug, PartialEq, Eq)]
pub struct Curve {
    pub writable: bool,
    pub size: usize,
    pub blocks: usize,
}

pub fn group(lent: &Lent, number: usize) -> Option<Group> {
    let sets = lent.group_sets(&lent.groups);
    let set = *sets.get(number)?;
    Some(Group {
        set,
        writable: number != 1 && set & sets[1] == 0,
    })
}

pub fn curve(lent: &Lent, number: usize) -> Option<Curve> {
    let record = lent.curves.chunks_exact(3).nth(number)?;
    Some(Curve {
        writable: record[0] == 1,
        size: record[1] as usize,
        blocks: record[2] as usize,
    })
}

/// A function's input and output, in bytes.
pub fn function(lent: &Lent, number: usize) -> Option<(usize, usize)> {
    let record = lent.functions.chunks_exact(2).nth(number)?;
    Some((record[0].into(), record[1].into()))
}

/// A variable's bytes, as far as the store has them.
pub fn value(lent: &Lent, number: usize) -> &[u8] {
    let (place, end) = (lent.place(number), lent.values.len());
    &lent.values[place.start.min(end)..place.end.min(end)]
}

/// The number that bytes of a variable mean, by the proved readings; none for plain bytes and wrong lengths.
pub fn number(lent: &Lent, variable: usize, bytes: &[u8]) -> Option<i128> {
    let name = VariableNumber(variable);
    let signed = cruachvel::read_signed(&lent.variables, name, bytes).map(i128::from);
    let unsigned = || cruachvel::read_unsigned(&lent.variables, name, bytes).map(i128::from);
    signed.or_else(|_| unsigned()).ok()
}

/// What is said of a number from which on a board has no such things, if it is one.
pub fn missing(name: &str, number: usize, count: usize) -> Option<String> {
    missing_of("board", name, number, count)
}

/// The same of things that something on the board has.
pub fn missing_of(owner: &str, name: &str, number: usize, count: usize) -> Option<String> {
    let has = match count.checked_sub(1) {
        None => "has none".to_string(),
        Some(last) => format!("has 0 to {}", last),
    };
    (number >= count).then(|| format!("there is no {} {}: the {} {}", name, number, owner, has))
}

pub fn type_name(writable: bool) -> &'static str {
    if writable {
        "writable"
    } else {
        "read-only"
    }
}

/// Whether the variable is a signed number.
pub fn is_signed(record: &Variable) -> bool {
    let signed = [Kind::SignedBig, Kind::SignedLittle].map(Kind::number);
    signed.contains(&record.kind)
}

pub fn kind_name(kind: u8) -> String {
    let name = match Kind::ALL.get(usize::from(kind)) {
        Some(Kind::Plain) => "plain",
        Some(Kind::UnsignedBig) => "unsigned big endian",
        Some(Kind::UnsignedLittle) => "unsigned little endian",
        Some(Kind::SignedBig) => "signed big endian",
        Some(Kind::SignedLittle) => "signed little endian",
        None => return format!("of unknown kind {}", kind),
    };
    name.to_string()
}

/// Numbers with spaces between them.
pub fn listed(numbers: impl Iterator<Item = usize>) -> String {
    let numbers: Vec<String> = numbers.map(|number| number.to_string()).collect();
    numbers.join(" ")
}

/// A set of variables in words.
pub fn set_text(set: u64) -> String {
    match set.count_ones() {
        0 => "no variables".to_string(),
        1 => format!("variable {}", set.trailing_zeros()),
        _ => format!("variables {}", listed(members(set))),
    }
}

/// A set of busy variables in words.
pub fn busy_text(set: u64) -> String {
    let verb = if set.count_ones() == 1 { "is" } else { "are" };
    format!("{} {} busy", set_text(set), verb)
}

pub fn variable_text(record: &Variable) -> String {
    format!(
        "{}, {}, {}",
        type_name(record.writable == 1),
        counted(record.size.into(), "byte"),
        kind_name(record.kind)
    )
}

pub fn group_text(group: Group) -> String {
    format!("{}, {}", type_name(group.writable), set_text(group.set))
}

pub fn curve_text(curve: Curve) -> String {
    let of = counted(curve.size, "byte");
    let blocks = counted(curve.blocks, "block");
    format!("{}, {} of {}", type_name(curve.writable), blocks, of)
}

/// A curve of a board: the same, and how many of its blocks are not full.
pub fn lent_curve_text(lent: &Lent, number: usize) -> Option<String> {
    let curve = curve(lent, number)?;
    let lengths = lent.curve_lengths(number).iter();
    let short = lengths.filter(|length| usize::from(**length) != curve.size);
    Some(match short.count() {
        0 => curve_text(curve),
        count => format!("{}, {} not full", curve_text(curve), grouped(count)),
    })
}

/// How many bytes a block has, where a full one has `size`.
pub fn filled_text(bytes: usize, size: usize) -> String {
    if bytes < size {
        format!("{} of {}", grouped(bytes), counted(size, "byte"))
    } else {
        counted(bytes, "byte")
    }
}

/// A block of a curve, with its length, if it has one.
pub fn block_text(lent: &Lent, number: usize, block: usize) -> String {
    let length = lent.curve_lengths(number).get(block);
    match (curve(lent, number), length) {
        (Some(curve), Some(length)) => {
            let filled = filled_text(usize::from(*length), curve.size);
            format!("block {}: {}", block, filled)
        }
        _ => format!("block {}", block),
    }
}

/// Lengths as a board file takes them: a word for each, or for neighbours that are alike, up to the most that a word can stand for.
pub fn length_words(lengths: &[u16]) -> Vec<String> {
    let (mut words, mut rest) = (Vec::new(), lengths);
    while let Some(length) = rest.first() {
        let alike = rest.iter().take_while(|other| *other == length);
        let count = alike.count().min(u16::MAX.into());
        words.push(match count {
            1 => length.to_string(),
            _ => format!("{}*{}", length, count),
        });
        rest = &rest[count..];
    }
    words
}

/// What a curve's sum is of.
pub fn sum_text(curve: usize, stale: bool) -> String {
    if stale {
        format!("stale: curve {} holds something else now", curve)
    } else {
        format!("of what curve {} holds", curve)
    }
}

pub fn function_text((input, output): (usize, usize)) -> String {
    format!("{} in, {} out", counted(input, "byte"), grouped(output))
}
