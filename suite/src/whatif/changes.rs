//! What a call changed in values, curves, their blocks' lengths, sums and groups, and in what a gateway knows of them.
use super::bytes::shown;
use super::gateway::known_changes;
use super::things::{curve, number, set_text, value, Setting};
use crate::lent::Lent;
use cruachvel::Groups;
use std::ops::Range;

/// A line for each variable, block, length, sum and group that is not what it was, one for neighbours whose lengths changed alike, and one for
/// each thing that a gateway knows otherwise.
pub fn changes(before: &Setting, after: &Setting) -> Vec<String> {
    let (old, new) = (&before.lent, &after.lent);
    let mut lines = values(old, new);
    lines.extend(blocks(old, new));
    lines.extend(lengths(old, new));
    lines.extend(sums(old, new));
    lines.extend(group_lines("group", &old.groups, &new.groups));
    lines.extend(known_changes(before, after));
    lines
}

fn values(before: &Lent, after: &Lent) -> Vec<String> {
    let changed = |variable: &usize| value(before, *variable) != value(after, *variable);
    let line = |variable: usize| {
        let (old, new) = (
            value_text(before, variable, value(before, variable)),
            value_text(after, variable, value(after, variable)),
        );
        format!("variable {}: {} -> {}", variable, old, new)
    };
    (0..before.variables.len())
        .filter(changed)
        .map(line)
        .collect()
}

/// A variable's bytes, and the number that they mean if it is one.
pub fn value_text(lent: &Lent, variable: usize, bytes: &[u8]) -> String {
    match number(lent, variable, bytes) {
        Some(number) => format!("{} ({})", shown(bytes), number),
        None => shown(bytes),
    }
}

fn blocks(before: &Lent, after: &Lent) -> Vec<String> {
    let mut lines = Vec::new();
    for number in 0..before.curves.len() / 3 {
        let size = curve(before, number).map_or(1, |curve| curve.size.max(1));
        let old = before.curve_room(number).chunks(size);
        let new = after.curve_room(number).chunks(size);
        for (block, (old, new)) in old
            .zip(new)
            .enumerate()
            .filter(|(_, (old, new))| old != new)
        {
            let Range { start, end } = differing(old, new);
            let (old, new) = (shown(&old[start..end]), shown(&new[start..end]));
            lines.push(format!(
                "curve {}, block {}, from byte {}: {} -> {}",
                number, block, start, old, new
            ));
        }
    }
    lines
}

fn lengths(before: &Lent, after: &Lent) -> Vec<String> {
    let mut lines = Vec::new();
    for number in 0..before.curves.len() / 3 {
        let (old, new) = (before.curve_lengths(number), after.curve_lengths(number));
        let pairs: Vec<(&u16, &u16)> = old.iter().zip(new).collect();
        let mut block = 0;
        while let Some((old, new)) = pairs.get(block) {
            let alike = pairs[block..]
                .iter()
                .take_while(|pair| **pair == (old, new));
            let after = block + alike.count();
            if old != new {
                let blocks = match after - block {
                    1 => format!("block {}", block),
                    _ => format!("blocks {} to {}", block, after - 1),
                };
                lines.push(format!(
                    "curve {}, {}, length: {} -> {}",
                    number, blocks, old, new
                ));
            }
            block = after;
        }
    }
    lines
}

fn sums(before: &Lent, after: &Lent) -> Vec<String> {
    let changed = |curve: &usize| before.sum(*curve) != after.sum(*curve);
    let line = |curve: usize| {
        let (old, new) = (shown(before.sum(curve)), shown(after.sum(curve)));
        format!("sum of curve {}: {} -> {}", curve, old, new)
    };
    let curves = 0..before.curves.len() / 3;
    curves.filter(changed).map(line).collect()
}

// The part from the first byte that differs to the last.
fn differing(old: &[u8], new: &[u8]) -> Range<usize> {
    let differs = |place: &usize| old[*place] != new[*place];
    let first = (0..old.len()).find(differs).unwrap_or(0);
    let last = (0..old.len()).rev().find(differs).unwrap_or(0);
    first..last + 1
}

/// A line for each made group that is not what it was.
pub fn group_lines(name: &str, before: &Groups, after: &Groups) -> Vec<String> {
    let made =
        |groups: &Groups, place: usize| (place < groups.count as usize).then(|| groups.sets[place]);
    let text = |set: Option<u64>| set.map_or("none".to_string(), set_text);
    let line = |place: usize| {
        let (old, new) = (made(before, place), made(after, place));
        let (number, old_text, new_text) = (place + 3, text(old), text(new));
        (old != new).then(|| format!("{} {}: {} -> {}", name, number, old_text, new_text))
    };
    (0..before.sets.len()).filter_map(line).collect()
}
