//! 01's readings with the kinds that the gateway supplies; refusals 1, 9, 11, 10 and 12.
use crate::gateway::a;
use suite::second_asking::{signed, unsigned, write_signed, write_unsigned, Learned};

const SIZES: [u8; 4] = [1, 2, 4, 8];
const A: [u8; 3] = [3, 0, 2];

fn of(variables: &[(bool, u8)]) -> Learned {
    let variables = variables.to_vec();
    Learned {
        variables,
        ..Learned::default()
    }
}

fn one(size: u8) -> Learned {
    of(&[(true, size)])
}

// All four agree on refusals 1 and 9, which come before any other.
fn refusal(learned: &Learned, kinds: &[u8], variable: usize) -> Option<u8> {
    let refusals = [
        signed(learned, kinds, variable, &[]).err(),
        unsigned(learned, kinds, variable, &[]).err(),
        write_signed(learned, kinds, variable, 0).err(),
        write_unsigned(learned, kinds, variable, 0).err(),
    ];
    let first = refusals[0].filter(|refusal| [1, 9].contains(refusal));
    for refusal in refusals {
        assert_eq!(refusal.filter(|refusal| [1, 9].contains(refusal)), first);
    }
    first
}

#[test]
fn board_as_variables() {
    assert_eq!(signed(&a(), &A, 0, &[0xFF, 0xFF, 0xFF, 0xFD]), Ok(-3));
    assert_eq!(unsigned(&a(), &A, 2, &[0x34, 0x12]), Ok(0x1234));
    assert_eq!(
        write_signed(&a(), &A, 0, -3),
        Ok(vec![0xFF, 0xFF, 0xFF, 0xFD])
    );
    assert_eq!(write_unsigned(&a(), &A, 2, 0x1234), Ok(vec![0x34, 0x12]));
}

#[test]
fn signed_one_byte_80_is_minus_128_and_7f_is_127() {
    for kind in [3, 4] {
        let kinds = [kind];
        assert_eq!(signed(&one(1), &kinds, 0, &[0x80]), Ok(-128));
        assert_eq!(signed(&one(1), &kinds, 0, &[0x7F]), Ok(127));
        assert_eq!(write_signed(&one(1), &kinds, 0, -128), Ok(vec![0x80]));
        assert_eq!(write_signed(&one(1), &kinds, 0, 127), Ok(vec![0x7F]));
        assert_eq!(write_signed(&one(1), &kinds, 0, -129), Err(12));
        assert_eq!(write_signed(&one(1), &kinds, 0, 128), Err(12));
    }
}

#[test]
fn a_short_signed_value_is_not_widened_with_zeros() {
    assert_eq!(signed(&one(2), &[3], 0, &[0xFF, 0xFE]), Ok(-2));
    assert_eq!(signed(&one(2), &[4], 0, &[0xFE, 0xFF]), Ok(-2));
    assert_eq!(signed(&one(4), &[4], 0, &[0, 0, 0, 0x80]), Ok(-(1 << 31)));
    assert_eq!(signed(&one(8), &[3], 0, &[0xFF; 8]), Ok(-1));
}

#[test]
fn every_one_byte_number_both_ways() {
    for byte in 0..=255_u8 {
        let number = if byte < 128 {
            i64::from(byte)
        } else {
            i64::from(byte) - 256
        };
        assert_eq!(signed(&one(1), &[3], 0, &[byte]), Ok(number));
        assert_eq!(write_signed(&one(1), &[4], 0, number), Ok(vec![byte]));
        let number = u64::from(byte);
        assert_eq!(unsigned(&one(1), &[1], 0, &[byte]), Ok(number));
        assert_eq!(write_unsigned(&one(1), &[2], 0, number), Ok(vec![byte]));
    }
}

#[test]
fn big_and_little_endian() {
    let bytes = [0x01, 0x02, 0x03, 0x04, 0x05, 0x06, 0x07, 0x08];
    let eight = one(8);
    assert_eq!(unsigned(&eight, &[1], 0, &bytes), Ok(0x0102_0304_0506_0708));
    assert_eq!(unsigned(&eight, &[2], 0, &bytes), Ok(0x0807_0605_0403_0201));
    assert_eq!(signed(&eight, &[3], 0, &bytes), Ok(0x0102_0304_0506_0708));
    assert_eq!(signed(&eight, &[4], 0, &bytes), Ok(0x0807_0605_0403_0201));
}

#[test]
fn the_ends_of_each_signed_range() {
    for size in [1, 2, 4] {
        let half = 1_i64 << (8 * size - 1);
        for kind in [3, 4] {
            let write = |number| write_signed(&one(size), &[kind], 0, number);
            for number in [-half, 1 - half, -1, 0, 1, half - 1] {
                let bytes = write(number).expect("in range");
                assert_eq!(bytes.len(), usize::from(size));
                assert_eq!(signed(&one(size), &[kind], 0, &bytes), Ok(number));
            }
            for number in [i64::MIN, -half - 1, half, i64::MAX] {
                assert_eq!(write(number), Err(12));
            }
        }
    }
    for number in [i64::MIN, i64::MIN + 1, -1, 0, 1, i64::MAX] {
        let bytes = number.to_be_bytes();
        assert_eq!(write_signed(&one(8), &[3], 0, number), Ok(bytes.to_vec()));
        assert_eq!(signed(&one(8), &[3], 0, &bytes), Ok(number));
    }
}

#[test]
fn the_ends_of_each_unsigned_range() {
    for size in [1, 2, 4] {
        let end = 1_u64 << (8 * size);
        for kind in [1, 2] {
            let write = |number| write_unsigned(&one(size), &[kind], 0, number);
            for number in [0, 1, end / 2 - 1, end / 2, end - 1] {
                let bytes = write(number).expect("in range");
                assert_eq!(bytes.len(), usize::from(size));
                assert_eq!(unsigned(&one(size), &[kind], 0, &bytes), Ok(number));
            }
            for number in [end, end + 1, u64::MAX] {
                assert_eq!(write(number), Err(12));
            }
        }
    }
    for number in [0, 1 << 63, u64::MAX] {
        let bytes = number.to_le_bytes();
        assert_eq!(write_unsigned(&one(8), &[2], 0, number), Ok(bytes.to_vec()));
        assert_eq!(unsigned(&one(8), &[2], 0, &bytes), Ok(number));
    }
}

#[test]
fn refusal_11_plain_or_the_other_sign_before_10() {
    for size in SIZES {
        for kind in 0..=4 {
            let table = one(size);
            let right = vec![0; usize::from(size)];
            let is_signed = [3, 4].contains(&kind);
            let is_unsigned = [1, 2].contains(&kind);
            for bytes in [&[][..], &right, &[0; 9]] {
                let fits = bytes.len() == right.len();
                let expected = if fits { None } else { Some(10) };
                let read = signed(&table, &[kind], 0, bytes).err();
                assert_eq!(read, if is_signed { expected } else { Some(11) });
                let read = unsigned(&table, &[kind], 0, bytes).err();
                assert_eq!(read, if is_unsigned { expected } else { Some(11) });
            }
            let written = write_signed(&table, &[kind], 0, 0).err();
            assert_eq!(written, (!is_signed).then_some(11));
            let written = write_unsigned(&table, &[kind], 0, 0).err();
            assert_eq!(written, (!is_unsigned).then_some(11));
        }
    }
    assert_eq!(
        write_signed(&one(1), &[0], 0, i64::MAX),
        Err(11),
        "before 12"
    );
    assert_eq!(
        write_unsigned(&one(1), &[3], 0, u64::MAX),
        Err(11),
        "before 12"
    );
}

#[test]
fn refusal_10_a_byte_too_few_or_too_many() {
    for size in SIZES {
        for length in 0..20 {
            let bytes = vec![0; length];
            let expected = if length == usize::from(size) {
                Ok(0)
            } else {
                Err(10)
            };
            assert_eq!(signed(&one(size), &[4], 0, &bytes), expected);
            let expected = if length == usize::from(size) {
                Ok(0)
            } else {
                Err(10)
            };
            assert_eq!(unsigned(&one(size), &[1], 0, &bytes), expected);
        }
    }
}

#[test]
fn refusal_9_no_such_variable() {
    for variable in 0..3 {
        assert_eq!(refusal(&a(), &A, variable), None);
    }
    for variable in [3, 64, 255, 256, usize::MAX] {
        assert_eq!(refusal(&a(), &A, variable), Some(9));
    }
}

#[test]
fn the_shorter_list_decides_how_many_records_there_are() {
    assert_eq!(refusal(&a(), &A[..2], 1), None);
    assert_eq!(refusal(&a(), &A[..2], 2), Some(9));
    assert_eq!(refusal(&a(), &[], 0), Some(1), "no records at all");
    assert_eq!(refusal(&Learned::default(), &A, 0), Some(1));
    let longer = [3, 0, 2, 1, 200];
    assert_eq!(refusal(&a(), &longer, 2), None);
    assert_eq!(refusal(&a(), &longer, 3), Some(9));
    let past = of(&[(true, 1), (true, 0)]);
    assert_eq!(refusal(&past, &[1], 0), None);
    assert_eq!(refusal(&past, &[1, 0], 0), Some(1));
    let many = of(&[(true, 1); 300]);
    assert_eq!(refusal(&many, &[1; 64], 63), None);
    assert_eq!(refusal(&many, &[1; 65], 63), Some(1));
    assert_eq!(refusal(&of(&[(true, 1); 64]), &[1; 300], 63), None);
}

#[test]
fn refusal_1_a_record_that_breaks_the_limits() {
    for size in 0..=255 {
        for kind in 0..=255 {
            let allowed = match kind {
                0 => (1..=127).contains(&size),
                1..=4 => SIZES.contains(&size),
                _ => false,
            };
            let expected = (!allowed).then_some(1);
            assert_eq!(refusal(&one(size), &[kind], 0), expected);
            let behind = of(&[(true, 1), (true, size)]);
            assert_eq!(refusal(&behind, &[1, kind], 0), expected);
            assert_eq!(refusal(&behind, &[1, kind], 9), expected.or(Some(9)));
        }
    }
}

#[test]
fn refusal_1_records_of_more_than_4096_bytes_together() {
    let mut variables = [(false, 64); 64];
    let kinds = [0; 64];
    assert_eq!(refusal(&of(&variables), &kinds, 0), None);
    variables[63].1 = 65;
    assert_eq!(refusal(&of(&variables), &kinds, 0), Some(1));
    assert_eq!(refusal(&of(&variables), &kinds[..63], 0), None);
}

#[test]
fn only_the_variables_of_the_table_count() {
    let learned = Learned {
        groups: vec![0; 9],
        curves: vec![(2, 0, 0); 9],
        functions: vec![(99, 99); 99],
        ..a()
    };
    assert_eq!(signed(&learned, &A, 0, &[0xFF, 0xFF, 0xFF, 0xFD]), Ok(-3));
    assert_eq!(write_unsigned(&learned, &A, 2, 1), Ok(vec![1, 0]));
}
