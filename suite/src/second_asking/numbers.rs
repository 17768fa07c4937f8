//! Bytes to numbers and back. Kinds don't travel on the wire, so the gateway supplies them beside what it learned: 0 plain, 1 unsigned big,
//! 2 unsigned little, 3 signed big, 4 signed little endian.
#![forbid(unsafe_code)]

use super::refusals::{
    NO_SUCH_VARIABLE, OUT_OF_RANGE, TABLE_UNUSABLE, WRONG_BYTE_COUNT, WRONG_KIND,
};
use super::table::{variables_allowed, Learned};
use core::ops::Range;

#[derive(Clone, Copy, PartialEq, Eq)]
enum Sign {
    Unsigned,
    Signed,
}

#[derive(Clone, Copy, PartialEq, Eq)]
enum Order {
    Big,
    Little,
}

/// How the bytes of a variable are to be taken.
struct Form {
    size: usize,
    order: Order,
    sign: Sign,
}

/// The signed number that the bytes mean; refusals 1, 9, 11, 10.
pub fn signed(learned: &Learned, kinds: &[u8], variable: usize, bytes: &[u8]) -> Result<i64, u8> {
    let form = Form::of(learned, kinds, variable, Sign::Signed)?;
    // Exact, as eight bytes of this sign mean no number that the type lacks.
    form.meant(bytes).map(|number| number as i64)
}

/// The unsigned number that the bytes mean; refusals 1, 9, 11, 10.
pub fn unsigned(learned: &Learned, kinds: &[u8], variable: usize, bytes: &[u8]) -> Result<u64, u8> {
    let form = Form::of(learned, kinds, variable, Sign::Unsigned)?;
    form.meant(bytes).map(|number| number as u64)
}

/// The bytes that read as the number, as many as the variable has; refusals 1, 9, 11, 12.
pub fn write_signed(
    learned: &Learned,
    kinds: &[u8],
    variable: usize,
    number: i64,
) -> Result<Vec<u8>, u8> {
    let form = Form::of(learned, kinds, variable, Sign::Signed)?;
    form.bytes(i128::from(number))
}

/// The bytes that read as the number, as many as the variable has; refusals 1, 9, 11, 12.
pub fn write_unsigned(
    learned: &Learned,
    kinds: &[u8],
    variable: usize,
    number: u64,
) -> Result<Vec<u8>, u8> {
    let form = Form::of(learned, kinds, variable, Sign::Unsigned)?;
    form.bytes(i128::from(number))
}

impl Form {
    /// The form of a variable that has this sign; refusals 1, 9, 11.
    fn of(learned: &Learned, kinds: &[u8], variable: usize, sign: Sign) -> Result<Form, u8> {
        let mut records = learned.variables.iter().zip(kinds);
        // Both lists may go on past the records; what stands there counts for nothing.
        let variables = &learned.variables[..records.len()];
        let kinds_allowed = |(&(_, size), &kind): (&(bool, u8), &u8)| kind_allowed(size, kind);
        if !variables_allowed(variables) || !records.clone().all(kinds_allowed) {
            return Err(TABLE_UNUSABLE);
        }
        let (&(_, size), &kind) = records.nth(variable).ok_or(NO_SUCH_VARIABLE)?;
        match number_kind(kind) {
            Some((kind_sign, order)) if kind_sign == sign => Ok(Form {
                size: usize::from(size),
                order,
                sign,
            }),
            _ => Err(WRONG_KIND),
        }
    }

    /// The numbers that so many bytes can mean.
    fn range(&self) -> Range<i128> {
        let count = 1_i128 << (8 * self.size);
        match self.sign {
            Sign::Unsigned => 0..count,
            Sign::Signed => -count / 2..count / 2,
        }
    }

    /// The number that the bytes mean; refusal 10.
    fn meant(&self, bytes: &[u8]) -> Result<i128, u8> {
        if bytes.len() != self.size {
            return Err(WRONG_BYTE_COUNT);
        }
        let mut most_first = bytes.to_vec();
        if self.order == Order::Little {
            most_first.reverse();
        }
        let append = |number: i128, byte: u8| number * 256 + i128::from(byte);
        let number = most_first.into_iter().fold(0, append);
        let Range { start, end } = self.range();
        Ok(if number < end {
            number
        } else {
            number - (end - start)
        })
    }

    /// The bytes that read as the number; refusal 12.
    fn bytes(&self, number: i128) -> Result<Vec<u8>, u8> {
        if !self.range().contains(&number) {
            return Err(OUT_OF_RANGE);
        }
        // A shift of a negative number keeps its sign, so that its bytes are those of the unsigned value that reads as it.
        let byte = |place: usize| (number >> (8 * place)) as u8;
        let mut bytes: Vec<u8> = (0..self.size).map(byte).collect();
        if self.order == Order::Big {
            bytes.reverse();
        }
        Ok(bytes)
    }
}

/// None for plain bytes, and for what is no kind at all.
fn number_kind(kind: u8) -> Option<(Sign, Order)> {
    match kind {
        1 => Some((Sign::Unsigned, Order::Big)),
        2 => Some((Sign::Unsigned, Order::Little)),
        3 => Some((Sign::Signed, Order::Big)),
        4 => Some((Sign::Signed, Order::Little)),
        _ => None,
    }
}

fn kind_allowed(size: u8, kind: u8) -> bool {
    kind == 0 || (number_kind(kind).is_some() && matches!(size, 1 | 2 | 4 | 8))
}
