//! Bytes to numbers and back.
#![forbid(unsafe_code)]

use super::board::{Layout, Variable};
use super::board::{SIGNED_BIG, SIGNED_LITTLE, UNSIGNED_BIG, UNSIGNED_LITTLE};
use super::codes::{BOARD_UNUSABLE, DOES_NOT_FIT, NO_SUCH_VARIABLE, WRONG_BYTE_COUNT, WRONG_KIND};

#[derive(Clone, Copy)]
enum Order {
    Big,
    Little,
}

/// The signed number that the bytes mean; refusals 1, 9, 11, 10.
pub fn read_signed(variables: &[Variable], variable: usize, bytes: &[u8]) -> Result<i64, u8> {
    let order = signed_order(variables, variable, bytes.len())?;
    let unused = unused_bits(bytes.len());
    Ok(((joined(order, bytes) << unused) as i64) >> unused)
}

/// The unsigned number that the bytes mean; refusals 1, 9, 11, 10.
pub fn read_unsigned(variables: &[Variable], variable: usize, bytes: &[u8]) -> Result<u64, u8> {
    let order = unsigned_order(variables, variable, bytes.len())?;
    Ok(joined(order, bytes))
}

/// Writes the bytes that read as the number; refusals 1, 9, 11, 10, 12.
pub fn write_signed(
    variables: &[Variable],
    variable: usize,
    number: i64,
    buffer: &mut [u8],
) -> Result<(), u8> {
    let order = signed_order(variables, variable, buffer.len())?;
    let unused = unused_bits(buffer.len());
    if (number << unused) >> unused != number {
        return Err(DOES_NOT_FIT);
    }
    split(order, number as u64, buffer);
    Ok(())
}

/// Writes the bytes that read as the number; refusals 1, 9, 11, 10, 12.
pub fn write_unsigned(
    variables: &[Variable],
    variable: usize,
    number: u64,
    buffer: &mut [u8],
) -> Result<(), u8> {
    let order = unsigned_order(variables, variable, buffer.len())?;
    let unused = unused_bits(buffer.len());
    if (number << unused) >> unused != number {
        return Err(DOES_NOT_FIT);
    }
    split(order, number, buffer);
    Ok(())
}

fn signed_order(variables: &[Variable], variable: usize, given: usize) -> Result<Order, u8> {
    let record = record(variables, variable)?;
    let order = match record.kind {
        SIGNED_BIG => Order::Big,
        SIGNED_LITTLE => Order::Little,
        _ => return Err(WRONG_KIND),
    };
    right_count(record, given)?;
    Ok(order)
}

fn unsigned_order(variables: &[Variable], variable: usize, given: usize) -> Result<Order, u8> {
    let record = record(variables, variable)?;
    let order = match record.kind {
        UNSIGNED_BIG => Order::Big,
        UNSIGNED_LITTLE => Order::Little,
        _ => return Err(WRONG_KIND),
    };
    right_count(record, given)?;
    Ok(order)
}

fn record(variables: &[Variable], variable: usize) -> Result<Variable, u8> {
    if Layout::of(variables).is_none() {
        return Err(BOARD_UNUSABLE);
    }
    variables.get(variable).copied().ok_or(NO_SUCH_VARIABLE)
}

fn right_count(record: Variable, given: usize) -> Result<(), u8> {
    if given == usize::from(record.size) {
        Ok(())
    } else {
        Err(WRONG_BYTE_COUNT)
    }
}

/// The bits of a 64-bit number above a number of 1, 2, 4 or 8 bytes.
fn unused_bits(bytes: usize) -> usize {
    64 - 8 * bytes
}

fn joined(order: Order, bytes: &[u8]) -> u64 {
    let join = |number: u64, &byte: &u8| (number << 8) | u64::from(byte);
    match order {
        Order::Big => bytes.iter().fold(0, join),
        Order::Little => bytes.iter().rev().fold(0, join),
    }
}

/// Writes the lowest bytes of the number, as many as the buffer has.
fn split(order: Order, number: u64, buffer: &mut [u8]) {
    let count = buffer.len();
    match order {
        Order::Big => buffer.copy_from_slice(&number.to_be_bytes()[8 - count..]),
        Order::Little => buffer.copy_from_slice(&number.to_le_bytes()[..count]),
    }
}
