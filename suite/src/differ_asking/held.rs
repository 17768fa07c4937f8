//! What a board itself holds, as the right answer to a request that met no error.
use super::asked::Asked;
use super::nodes::Worked;
use crate::lent::{members, Lent};
use crate::second;
use crate::second_asking::Heard;
use cruachvel::SUM_SIZE;

/// The right answer, with the board as it is after the packet.
pub(super) fn held(lent: &Lent, asked: &Asked, worked: &Worked) -> Heard {
    let number = asked.number;
    match asked.code {
        0x00 => Heard::Version([2, 20, 0]),
        0x02 => Heard::Variables(variables(lent)),
        0x04 => Heard::Groups(groups(lent)),
        0x06 => {
            let set = lent.group_sets(&lent.groups)[number];
            Heard::Members(members(set).map(|id| id as u8).collect())
        }
        0x08 => Heard::Curves(curves(lent)),
        0x0A => {
            let sum: Result<[u8; SUM_SIZE], _> = lent.sum(number).try_into();
            Heard::Sum(sum.expect("16 bytes"))
        }
        0x0C => {
            let functions = lent.functions.chunks_exact(2);
            Heard::Functions(functions.map(|record| (record[0], record[1])).collect())
        }
        0x10 => Heard::Values(vec![value(lent, number)]),
        0x12 => {
            let set = lent.group_sets(&lent.groups)[number];
            Heard::Values(members(set).map(|id| value(lent, id)).collect())
        }
        0x28 => Heard::Values(vec![value(lent, asked.other)]),
        0x40 => Heard::Block(block(lent, number, asked.block).to_vec()),
        0x50 => match worked.ran {
            second::Ran::Well => Heard::Output(worked.output(lent, number).to_vec()),
            second::Ran::Failed(error) => Heard::Failed(error),
        },
        _ => Heard::Done,
    }
}

fn variables(lent: &Lent) -> Vec<(bool, u8)> {
    let variables = lent.variables.iter();
    variables.map(|v| (v.writable == 1, v.size)).collect()
}

// Group 1 is read-only even if it is empty.
fn groups(lent: &Lent) -> Vec<(bool, u8)> {
    let sets = lent.group_sets(&lent.groups);
    let told = |(group, set): (usize, &u64)| {
        let writable = group != 1 && set & sets[1] == 0;
        (writable, set.count_ones() as u8)
    };
    sets.iter().enumerate().map(told).collect()
}

fn curves(lent: &Lent) -> Vec<(u32, u32, u32)> {
    let curves = lent.curves.chunks_exact(3);
    curves
        .map(|record| (record[0], record[1], record[2]))
        .collect()
}

/// A variable with its bytes.
pub(super) fn value(lent: &Lent, variable: usize) -> (usize, Vec<u8>) {
    (variable, lent.values[lent.place(variable)].to_vec())
}

/// The bytes of a block, as many as its length says.
pub(super) fn block(lent: &Lent, curve: usize, block: usize) -> &[u8] {
    let size = lent.curves[3 * curve + 1] as usize;
    let length = lent.curve_lengths(curve)[block];
    &lent.curve_room(curve)[block * size..][..usize::from(length)]
}
