//! Readings and writings on compiled code: every kind and size, at the edges of its range and at random.
use cruachvel::{
    read_signed, read_unsigned, write_signed, write_unsigned, Kind, Refusal, Variable,
    VariableNumber,
};
use suite::random::Random;

const SIZES: [u8; 4] = [1, 2, 4, 8];
const FIRST: VariableNumber = VariableNumber(0);

fn one(size: u8, kind: Kind) -> [Variable; 1] {
    [Variable::read_only(size, kind)]
}

// What n bytes mean by 01's sentence: u, or u - 2^(8n) if u >= 2^(8n-1).
fn meant(bytes: &[u8], kind: Kind) -> i128 {
    let mut most_first = bytes.to_vec();
    if matches!(kind, Kind::UnsignedLittle | Kind::SignedLittle) {
        most_first.reverse();
    }
    let unsigned = most_first
        .iter()
        .fold(0, |sum, byte| sum * 256 + i128::from(*byte));
    let half = 1 << (8 * bytes.len() - 1);
    let signed = matches!(kind, Kind::SignedBig | Kind::SignedLittle);
    if signed && unsigned >= half {
        unsigned - 2 * half
    } else {
        unsigned
    }
}

fn read(variables: &[Variable], bytes: &[u8]) -> Result<i128, Refusal> {
    if variables[0].kind >= Kind::SignedBig.number() {
        read_signed(variables, FIRST, bytes).map(i128::from)
    } else {
        read_unsigned(variables, FIRST, bytes).map(i128::from)
    }
}

// None where the argument's own type can't hold the number, so that it can't even be asked.
fn write(variables: &[Variable], number: i128, buffer: &mut [u8]) -> Option<Result<(), Refusal>> {
    if variables[0].kind >= Kind::SignedBig.number() {
        let number = i64::try_from(number).ok()?;
        Some(write_signed(variables, FIRST, number, buffer))
    } else {
        let number = u64::try_from(number).ok()?;
        Some(write_unsigned(variables, FIRST, number, buffer))
    }
}

fn each_kind_and_size(mut check: impl FnMut(&[Variable], Kind)) {
    for kind in Kind::ALL.into_iter().skip(1) {
        for size in SIZES {
            check(&one(size, kind), kind);
        }
    }
}

#[test]
fn bytes_read_as_01_says_and_their_number_writes_them_back() {
    let mut random = Random::new(3);
    each_kind_and_size(|variables, kind| {
        let size = usize::from(variables[0].size);
        let edges = [0x00, 0x01, 0x7F, 0x80, 0xFF];
        for _ in 0..2000 {
            let mut bytes = random.bytes(size);
            for byte in &mut bytes {
                let edge = random.choose(&edges);
                *byte = random.choose(&[*byte, edge]);
            }
            let number = read(variables, &bytes).expect("the right size and kind");
            assert_eq!(number, meant(&bytes, kind), "{:?} {:02X?}", kind, bytes);
            let mut buffer = vec![!bytes[0]; size];
            assert_eq!(
                write(variables, number, &mut buffer),
                Some(Ok(())),
                "{:?} {}",
                kind,
                number
            );
            assert_eq!(buffer, bytes, "{:?} {}", kind, number);
        }
    });
}

#[test]
fn exactly_the_numbers_of_the_range_are_accepted() {
    each_kind_and_size(|variables, kind| {
        let size = usize::from(variables[0].size);
        let whole: i128 = 1 << (8 * size);
        let (least, most) = match kind {
            Kind::SignedBig | Kind::SignedLittle => (-whole / 2, whole / 2 - 1),
            _ => (0, whole - 1),
        };
        for edge in [least, most, 0, whole, -whole] {
            for number in edge - 2..=edge + 2 {
                let mut buffer = vec![0x5C; size];
                let fits = (least..=most).contains(&number);
                let expected = if fits {
                    Ok(())
                } else {
                    Err(Refusal::DoesNotFit)
                };
                let written = write(variables, number, &mut buffer);
                assert_eq!(
                    written.unwrap_or(expected),
                    expected,
                    "{:?} {}",
                    kind,
                    number
                );
                let read_back = read(variables, &buffer) == Ok(number);
                assert_eq!(read_back, fits, "{:?} {}", kind, number);
                assert!(fits || buffer.iter().all(|byte| *byte == 0x5C));
            }
        }
    });
}

#[test]
fn a_short_signed_value_keeps_its_sign() {
    for (bytes, number) in [
        (&[0x80][..], -128),
        (&[0x7F], 127),
        (&[0xFF, 0xFD], -3),
        (&[0xFF; 8], -1),
    ] {
        let variables = one(bytes.len() as u8, Kind::SignedBig);
        assert_eq!(read_signed(&variables, FIRST, bytes), Ok(number));
    }
    let variables = one(1, Kind::SignedLittle);
    for number in [-129, 128] {
        let refusal = write_signed(&variables, FIRST, number, &mut [0]);
        assert_eq!(refusal, Err(Refusal::DoesNotFit));
    }
}

#[test]
fn plain_bytes_and_the_other_sign_are_the_wrong_kind() {
    for kind in Kind::ALL {
        let variables = one(2, kind);
        let (signed, unsigned) = match kind {
            Kind::Plain => (false, false),
            Kind::UnsignedBig | Kind::UnsignedLittle => (false, true),
            Kind::SignedBig | Kind::SignedLittle => (true, false),
        };
        let wrong = Err(Refusal::WrongKind);
        assert_eq!(
            read_signed(&variables, FIRST, &[0, 0]).map(drop) == wrong,
            !signed
        );
        assert_eq!(
            read_unsigned(&variables, FIRST, &[0, 0]).map(drop) == wrong,
            !unsigned
        );
        assert_eq!(
            write_signed(&variables, FIRST, 0, &mut [0, 0]) == wrong,
            !signed
        );
        assert_eq!(
            write_unsigned(&variables, FIRST, 0, &mut [0, 0]) == wrong,
            !unsigned
        );
    }
}

#[test]
fn a_reading_of_another_length_is_the_wrong_byte_count() {
    each_kind_and_size(|variables, kind| {
        for length in (0..=9).filter(|length| *length != usize::from(variables[0].size)) {
            let mut bytes = vec![0x5C; length];
            assert_eq!(
                read(variables, &bytes),
                Err(Refusal::WrongByteCount),
                "{:?}",
                kind
            );
            assert_eq!(
                write(variables, 0, &mut bytes),
                Some(Err(Refusal::WrongByteCount)),
                "{:?}",
                kind
            );
            assert_eq!(bytes, vec![0x5C; length]);
        }
    });
}
