//! The lists that a node tells of itself. Each is none if it is not of whole records within 01's limits.
#![forbid(unsafe_code)]

use super::table::{curves_allowed, functions_allowed, variables_allowed};
use super::table::{MADE_MOST, STANDING, VARIABLES_MOST};

const CURVE_RECORD: usize = 5;

/// The payload of 03.
pub(super) fn variables(payload: &[u8]) -> Option<Vec<(bool, u8)>> {
    let variables: Vec<_> = payload.iter().copied().map(split_top).collect();
    variables_allowed(&variables).then_some(variables)
}

/// The payload of 05.
pub(super) fn groups(payload: &[u8]) -> Option<Vec<(bool, u8)>> {
    let groups: Vec<_> = payload.iter().copied().map(split_top).collect();
    let told = (STANDING..=STANDING + MADE_MOST).contains(&groups.len());
    let mut numbered = groups.iter().enumerate();
    let allowed = numbered.all(|(group, &(_, members))| {
        usize::from(members) <= VARIABLES_MOST && (members > 0 || may_be_empty(group))
    });
    (told && allowed).then_some(groups)
}

/// The payload of 07, which tells of this group.
pub(super) fn members(group: usize, payload: &[u8]) -> Option<Vec<u8>> {
    let ascending = payload.windows(2).all(|pair| pair[0] < pair[1]);
    let allowed = payload.iter().all(|&id| usize::from(id) < VARIABLES_MOST);
    let told = !payload.is_empty() || may_be_empty(group);
    (ascending && allowed && told).then(|| payload.to_vec())
}

/// The payload of 09.
pub(super) fn curves(payload: &[u8]) -> Option<Vec<(u32, u32, u32)>> {
    let records = payload.chunks_exact(CURVE_RECORD);
    if !records.remainder().is_empty() {
        return None;
    }
    let curves: Vec<_> = records.map(curve).collect::<Option<_>>()?;
    curves_allowed(&curves).then_some(curves)
}

fn curve(record: &[u8]) -> Option<(u32, u32, u32)> {
    match *record {
        [sort, size_high, size_low, blocks_high, blocks_low] => {
            let block_size = u16::from_be_bytes([size_high, size_low]);
            let blocks = match u16::from_be_bytes([blocks_high, blocks_low]) {
                // Two bytes have no other place for it, and no curve has no block.
                0 => 65_536,
                told => u32::from(told),
            };
            Some((u32::from(sort), u32::from(block_size), blocks))
        }
        _ => None,
    }
}

/// The payload of 0D.
pub(super) fn functions(payload: &[u8]) -> Option<Vec<(u8, u8)>> {
    let functions: Vec<_> = payload
        .iter()
        .map(|byte| (byte >> 4, byte & 0x0F))
        .collect();
    functions_allowed(&functions).then_some(functions)
}

/// The top bit, and the number in the low seven.
fn split_top(byte: u8) -> (bool, u8) {
    (byte & 0x80 != 0, byte & 0x7F)
}

/// A node may have no read-only variable, or no writable one; it never has none at all, and makes no group of none.
fn may_be_empty(group: usize) -> bool {
    matches!(group, 1 | 2)
}
