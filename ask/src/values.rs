//! Values: words to bytes, bytes to numbers.
use crate::failure::Failure;
use crate::uses::hex;
use cruachvel::{Gateway, Kind, Number, VariableNumber};
use suite::whatif::bytes as hexes;
use suite::whatif::json;
use suite::whatif::things::kind_name;

use crate::told::Facts;

/// A variable's value: its bytes, and the number that they mean where the kind is known.
pub struct Value {
    pub variable: VariableNumber,
    pub bytes: Vec<u8>,
    pub number: Option<Number>,
}

impl Value {
    /// A value that was read.
    pub fn read(gateway: &Gateway, variable: VariableNumber, bytes: &[u8]) -> Value {
        Value {
            variable,
            bytes: bytes.to_vec(),
            number: gateway.number(variable, bytes).ok(),
        }
    }

    /// A value that is to be written, from a word: a number where the kind is known to be one, and else bytes in hex.
    pub fn meant(
        gateway: &Gateway,
        variable: VariableNumber,
        word: &str,
    ) -> Result<Value, Failure> {
        let said =
            |message: String| Failure::Misused(format!("variable {}: {}", variable.0, message));
        let kind = gateway.kinds.get(variable.0).copied();
        let (bytes, number) = match kind {
            Some(kind) if kind != Kind::Plain && !word.ends_with(":hex") => {
                let number = number(kind, word).map_err(said)?;
                let size = gateway.learned.sizes.get(variable.0);
                let mut bytes = vec![0; size.map_or(0, |size| usize::from(*size))];
                let written = gateway.write_number(variable, number, &mut bytes);
                written.map_err(|refusal| {
                    let kind = kind_name(kind.number());
                    said(format!(
                        "{} is refused with {}, {}; it is {} with {}",
                        word,
                        refusal.number(),
                        refusal,
                        kind,
                        hexes::counted(bytes.len(), "byte")
                    ))
                })?;
                (bytes, Some(number))
            }
            None if !gateway.kinds.is_empty() && !word.ends_with(":hex") => {
                let message = "the board file doesn't have it; bytes in hex are 3412:hex";
                return Err(said(message.to_string()));
            }
            Some(_) => (hex(word).map_err(said)?, None),
            None => {
                let unknown = |message| {
                    said(format!(
                        "{}; its kind is not known without --board",
                        message
                    ))
                };
                (hex(word).map_err(unknown)?, None)
            }
        };
        Ok(Value {
            variable,
            bytes,
            number,
        })
    }

    /// The bytes, and the number if there is one.
    pub fn text(&self) -> String {
        let bytes = hexes::hex(&self.bytes);
        match self.number {
            Some(number) => format!("{}, the number {}", bytes, number),
            None => bytes,
        }
    }

    /// What was sent, and as what.
    pub fn sent(&self) -> String {
        match self.number {
            Some(_) => self.text(),
            None => format!("{}, as bytes", self.text()),
        }
    }

    /// The number, or else the bytes.
    pub fn short(&self) -> String {
        match self.number {
            Some(number) => number.to_string(),
            None => hexes::hex(&self.bytes),
        }
    }

    pub fn facts(&self) -> Facts {
        let mut facts = vec![
            ("variable", self.variable.0.to_string()),
            ("bytes", json::string(&hexes::hex(&self.bytes))),
        ];
        facts.extend(self.number.map(|number| ("number", number.to_string())));
        facts
    }
}

// A number in decimal, or in hex after 0x, of the sort that the kind has.
fn number(kind: Kind, word: &str) -> Result<Number, String> {
    let (sign, digits) = match word.strip_prefix('-') {
        Some(digits) => (-1, digits),
        None => (1, word),
    };
    let prefixed = digits
        .strip_prefix("0x")
        .or_else(|| digits.strip_prefix("0X"));
    let read = match prefixed {
        _ if digits.starts_with(['+', '-']) => None,
        Some(digits) if digits.starts_with(['+', '-']) => None,
        Some(digits) => i128::from_str_radix(digits, 16).ok(),
        None => digits.parse::<i128>().ok(),
    };
    let name = kind_name(kind.number());
    let number = read.ok_or_else(|| {
        format!(
            "{:?} is no number, and the kind is {}; bytes in hex are 3412:hex",
            word, name
        )
    })?;
    let signed = matches!(kind, Kind::SignedBig | Kind::SignedLittle);
    let number = number.checked_mul(sign).and_then(|number| match signed {
        true => i64::try_from(number).ok().map(Number::Signed),
        false => u64::try_from(number).ok().map(Number::Unsigned),
    });
    number.ok_or_else(|| format!("{} is refused with 12, doesn't fit; it is {}", word, name))
}

#[cfg(test)]
mod tests {
    use super::*;

    fn gateway() -> Gateway {
        let mut gateway = Gateway::new(5);
        gateway.learned.variables = 4;
        gateway.learned.sizes[..4].copy_from_slice(&[4, 1, 2, 8]);
        gateway.kinds = vec![Kind::SignedBig, Kind::Plain, Kind::UnsignedLittle];
        gateway
    }

    // Of variable 3 without any kinds.
    fn meant(variable: usize, word: &str) -> Result<(Vec<u8>, Option<i128>), String> {
        let mut gateway = gateway();
        if variable == 3 {
            gateway.kinds.clear();
        }
        told(&gateway, variable, word)
    }

    fn told(
        gateway: &Gateway,
        variable: usize,
        word: &str,
    ) -> Result<(Vec<u8>, Option<i128>), String> {
        let value = Value::meant(gateway, VariableNumber(variable), word);
        match value {
            Ok(value) => Ok((value.bytes, value.number.map(i128::from))),
            Err(failure) => Err(failure.message()),
        }
    }

    #[test]
    fn a_word_is_a_number_where_the_kind_is_one() {
        let minus_3 = (vec![0xFF, 0xFF, 0xFF, 0xFD], Some(-3));
        assert_eq!(meant(0, "-3"), Ok(minus_3.clone()));
        assert_eq!(meant(0, "-0x3"), Ok(minus_3));
        let number = (vec![0x34, 0x12], Some(0x1234));
        assert_eq!(meant(2, "0x1234"), Ok(number.clone()));
        assert_eq!(meant(2, "4660"), Ok(number));
        assert_eq!(meant(2, "1234:hex"), Ok((vec![0x12, 0x34], None)));
        assert_eq!(meant(1, "5A"), Ok((vec![0x5A], None)));
        assert_eq!(meant(3, "1234"), Ok((vec![0x12, 0x34], None)));
    }

    #[test]
    fn a_variable_that_the_board_file_lacks_takes_bytes_that_are_marked_so() {
        let bytes = Ok((vec![0x10], None));
        assert_eq!(told(&gateway(), 3, "10:hex"), bytes);
        let refused = "variable 3: the board file doesn't have it; bytes in hex are 3412:hex";
        assert_eq!(told(&gateway(), 3, "10"), Err(refused.to_string()));
    }

    #[test]
    fn what_can_t_be_meant_is_refused() {
        let wrong = [
            (0, "2147483648", "2147483648 is refused with 12, doesn't fit; it is signed big endian with 4 bytes"),
            (2, "65536", "65536 is refused with 12, doesn't fit; it is unsigned little endian with 2 bytes"),
            (2, "-1", "-1 is refused with 12, doesn't fit; it is unsigned little endian"),
            (0, "99999999999999999999", "99999999999999999999 is refused with 12, doesn't fit; it is signed big endian"),
            (2, "1F", "\"1F\" is no number, and the kind is unsigned little endian; bytes in hex are 3412:hex"),
            (2, "--1", "\"--1\" is no number, and the kind is unsigned little endian; bytes in hex are 3412:hex"),
            (1, "0x5A", "\"0x5A\" is no bytes in hex, such as 3412 or 34:12"),
            (3, "0x1234", "\"0x1234\" is no bytes in hex, such as 3412 or 34:12; its kind is not known without --board"),
            (3, "-30", "\"-30\" is no bytes in hex, such as 3412 or 34:12; its kind is not known without --board"),
        ];
        for (variable, word, message) in wrong {
            let message = format!("variable {}: {}", variable, message);
            assert_eq!(meant(variable, word), Err(message));
        }
    }
}
