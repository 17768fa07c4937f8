//! Board stores, readings and writings, with refusals 9 to 12.
use crate::bench::{hex, variable, Bench, UNTOUCHED};
use suite::second::{read_signed, read_unsigned, write_signed, write_unsigned, Variable};

#[test]
fn the_board_may_store_a_new_value_into_any_variable_read_only_or_busy_too() {
    let mut bench = Bench::a();
    bench.busy = u64::MAX;
    assert_eq!(bench.store(0, &[1, 2, 3, 4]), Ok(()));
    assert_eq!(bench.values, hex("01 02 03 04 5A 34 12"));
    assert_eq!(bench.store(2, &[5, 6]), Ok(()));
    assert_eq!(
        bench.values,
        hex("01 02 03 04 5A 05 06"),
        "only those bytes change"
    );
    let before = bench.state();
    assert_eq!(bench.store(3, &[]), Err(9));
    assert_eq!(bench.store(usize::MAX, &[1]), Err(9));
    assert_eq!(bench.store(64, &[1]), Err(9));
    assert_eq!(bench.store(1, &[]), Err(10));
    assert_eq!(bench.store(1, &[1, 2]), Err(10));
    assert_eq!(bench.state(), before);
}

type Writing<N> = fn(&[Variable], usize, N, &mut [u8]) -> Result<(), u8>;

/// Writes into an untouched buffer; a refusal leaves it so.
fn written<N>(
    entry: Writing<N>,
    variables: &[Variable],
    number: N,
    length: usize,
) -> Result<Vec<u8>, u8> {
    let mut buffer = vec![UNTOUCHED; length];
    let result = entry(variables, 0, number, &mut buffer);
    if result.is_err() {
        assert_eq!(buffer, vec![UNTOUCHED; length]);
    }
    result.map(|()| buffer)
}

#[test]
fn signed_one_byte_80_is_minus_128_7f_is_127_minus_129_and_128_are_refused_with_12() {
    for kind in [3, 4] {
        let one = [variable(0, 1, kind)];
        assert_eq!(read_signed(&one, 0, &[0x80]), Ok(-128));
        assert_eq!(read_signed(&one, 0, &[0x7F]), Ok(127));
        assert_eq!(written(write_signed, &one, -128, 1), Ok(vec![0x80]));
        assert_eq!(written(write_signed, &one, 127, 1), Ok(vec![0x7F]));
        assert_eq!(written(write_signed, &one, -129, 1), Err(12));
        assert_eq!(written(write_signed, &one, 128, 1), Err(12));
    }
}

#[test]
fn the_way_back_accepts_exactly_the_numbers_of_that_range() {
    for size in [1u8, 2, 4, 8] {
        let bits = 8 * u32::from(size);
        let low = -1i128 << (bits - 1);
        let high = -low - 1;
        let top = (1i128 << bits) - 1;
        let tried = [low - 1, low, low + 1, -2, -1, 0, 1, 258, high, high + 1];
        for little in [0u8, 1] {
            let signed = [variable(0, size, 3 + little)];
            for number in tried {
                if let Ok(number) = i64::try_from(number) {
                    let bytes = written(write_signed, &signed, number, usize::from(size));
                    let fits = (low..=high).contains(&i128::from(number));
                    assert_eq!(bytes.is_ok(), fits);
                    assert_eq!(bytes.clone().err(), if fits { None } else { Some(12) });
                    if let Ok(bytes) = bytes {
                        assert_eq!(read_signed(&signed, 0, &bytes), Ok(number));
                    }
                }
            }
            let unsigned = [variable(0, size, 1 + little)];
            for number in [0, 1, 258, high, high + 1, top - 1, top, top + 1] {
                if let Ok(number) = u64::try_from(number) {
                    let bytes = written(write_unsigned, &unsigned, number, usize::from(size));
                    let fits = i128::from(number) <= top;
                    assert_eq!(bytes.clone().err(), if fits { None } else { Some(12) });
                    if let Ok(bytes) = bytes {
                        assert_eq!(read_unsigned(&unsigned, 0, &bytes), Ok(number));
                    }
                }
            }
        }
    }
}

#[test]
fn big_or_little_endian() {
    let kinds = |kind| [variable(0, 4, kind)];
    let bytes = [0x81, 2, 3, 4];
    assert_eq!(read_unsigned(&kinds(1), 0, &bytes), Ok(0x8102_0304));
    assert_eq!(read_unsigned(&kinds(2), 0, &bytes), Ok(0x0403_0281));
    assert_eq!(
        read_signed(&kinds(3), 0, &bytes),
        Ok(0x8102_0304 - (1 << 32))
    );
    assert_eq!(read_signed(&kinds(4), 0, &bytes), Ok(0x0403_0281));
    assert_eq!(
        written(write_unsigned, &kinds(1), 0x0102_0304, 4),
        Ok(vec![1, 2, 3, 4])
    );
    assert_eq!(
        written(write_unsigned, &kinds(2), 0x0102_0304, 4),
        Ok(vec![4, 3, 2, 1])
    );
    assert_eq!(
        written(write_signed, &kinds(3), -2, 4),
        Ok(vec![0xFF, 0xFF, 0xFF, 0xFE])
    );
    assert_eq!(
        written(write_signed, &kinds(4), -2, 4),
        Ok(vec![0xFE, 0xFF, 0xFF, 0xFF])
    );
}

#[test]
fn bytes_to_number_1_9_11_10_and_number_to_bytes_1_9_11_10_12() {
    let a = Bench::a().variables;
    let broken = [variable(0, 3, 3)];
    let mut buffer = [UNTOUCHED; 9];
    let short = &mut buffer[..3];
    for number in [0, 3, usize::MAX] {
        assert_eq!(read_signed(&broken, number, &[0; 3]), Err(1));
        assert_eq!(read_unsigned(&broken, number, &[]), Err(1));
        assert_eq!(write_signed(&broken, number, i64::MAX, short), Err(1));
        assert_eq!(write_unsigned(&[], number, u64::MAX, short), Err(1));
    }
    for number in [3, 64, usize::MAX] {
        assert_eq!(read_signed(&a, number, &[]), Err(9));
        assert_eq!(read_unsigned(&a, number, &[]), Err(9));
        assert_eq!(write_signed(&a, number, i64::MAX, short), Err(9));
        assert_eq!(write_unsigned(&a, number, u64::MAX, short), Err(9));
    }
    // 11 comes before 10.
    assert_eq!(read_signed(&a, 1, &[]), Err(11), "plain");
    assert_eq!(read_unsigned(&a, 1, &[1]), Err(11), "plain");
    assert_eq!(read_signed(&a, 2, &[]), Err(11), "signed asked of unsigned");
    assert_eq!(read_unsigned(&a, 0, &[]), Err(11), "or the reverse");
    assert_eq!(write_signed(&a, 2, i64::MAX, short), Err(11));
    assert_eq!(write_unsigned(&a, 0, u64::MAX, short), Err(11));
    assert_eq!(write_unsigned(&a, 1, 0, short), Err(11));
    // 10 comes before 12.
    assert_eq!(read_signed(&a, 0, &[0; 3]), Err(10));
    assert_eq!(read_unsigned(&a, 2, &[0; 3]), Err(10));
    assert_eq!(write_signed(&a, 0, i64::MAX, short), Err(10));
    assert_eq!(write_unsigned(&a, 2, u64::MAX, short), Err(10));
    assert_eq!(buffer, [UNTOUCHED; 9]);
    assert_eq!(write_signed(&a, 0, i64::MAX, &mut buffer[..4]), Err(12));
    assert_eq!(write_unsigned(&a, 2, 65_536, &mut buffer[..2]), Err(12));
    assert_eq!(buffer, [UNTOUCHED; 9]);
}
