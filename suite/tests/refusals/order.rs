//! Several things wrong at once: the smallest number comes first, except that 11 comes before 10.
use crate::calls::{number_of, refused, FILLING, VERSION};
use cruachvel::{read_signed, read_unsigned, write_signed, write_unsigned};
use cruachvel::{Ran, VariableNumber};
use suite::boards::board_a;
use suite::lent::Lent;
use suite::packets::{message, packet};

// The first number of `order` whose bit is set in `wrong`.
fn first_of(order: &[u8], wrong: usize) -> Option<u8> {
    let places = 0..order.len();
    places
        .into_iter()
        .find(|place| wrong >> place & 1 == 1)
        .map(|place| order[place])
}

fn break_table(lent: &mut Lent, wrong: bool) {
    if wrong {
        lent.variables[1].kind = 5;
    }
}

#[test]
fn the_smallest_refusal_of_a_packet_comes_first() {
    for wrong in 0..1 << 5 {
        let is = |place: usize| wrong >> place & 1 == 1;
        let mut lent = board_a();
        break_table(&mut lent, is(0));
        lent.address.multicast = if is(1) { 0x80 } else { 0x81 };
        let mut buffer = vec![FILLING; if is(2) { 4103 } else { 4104 }];
        let mut request = packet(if is(4) { 6 } else { 5 }, &message(VERSION, &[]));
        request[3] ^= u8::from(is(3));
        let expected = first_of(&[1, 2, 3, 5, 6], wrong);
        assert_eq!(
            refused(lent.packet(0, &request, &mut buffer)),
            expected,
            "{:05b}",
            wrong
        );
        let mut long = request.clone();
        long.resize(4105, 0);
        let expected = first_of(&[1, 2, 3], wrong).or(Some(4));
        assert_eq!(
            refused(lent.packet(0, &long, &mut buffer)),
            expected,
            "{:05b}",
            wrong
        );
    }
}

#[test]
fn the_smallest_refusal_of_a_function_result_comes_first() {
    for wrong in 0..1 << 4 {
        let is = |place: usize| wrong >> place & 1 == 1;
        let mut lent = board_a();
        break_table(&mut lent, is(0));
        let mut buffer = vec![FILLING; if is(1) { 4103 } else { 4104 }];
        let function = if is(2) { 1 } else { 0 };
        let output: &[u8] = if is(3) { &[1] } else { &[1, 2] };
        let outcome = lent.function_result(function, true, Ran::Gave(output), &mut buffer);
        assert_eq!(
            refused(outcome),
            first_of(&[1, 3, 7, 8], wrong),
            "{:04b}",
            wrong
        );
    }
}

#[test]
fn the_smallest_refusal_of_a_board_store_comes_first() {
    for wrong in 0..1 << 3 {
        let is = |place: usize| wrong >> place & 1 == 1;
        let mut lent = board_a();
        break_table(&mut lent, is(0));
        let bytes: &[u8] = if is(2) {
            &[1, 2, 3, 4, 5]
        } else {
            &[1, 2, 3, 4]
        };
        let stored = lent.board_store(if is(1) { 3 } else { 0 }, bytes);
        assert_eq!(
            number_of(stored),
            first_of(&[1, 9, 10], wrong),
            "{:03b}",
            wrong
        );
    }
}

#[test]
fn wrong_kind_comes_before_wrong_byte_count_in_readings() {
    for wrong in 0..1 << 5 {
        let is = |place: usize| wrong >> place & 1 == 1;
        let mut lent = board_a();
        break_table(&mut lent, is(0));
        let (bytes, mut buffer) = ([1; 5], [FILLING; 5]);
        let length = if is(3) { 5 } else { 4 };
        let (bytes, buffer) = (&bytes[..length], &mut buffer[..length]);
        let number = if is(4) { 1 << 31 } else { 1 };
        let (variables, variable) = (&lent.variables, VariableNumber(if is(1) { 3 } else { 0 }));
        // Variable 0 is signed, so asking for an unsigned number is the wrong kind.
        let (read, written) = if is(2) {
            let read = number_of(read_unsigned(variables, variable, bytes));
            (read, write_unsigned(variables, variable, number, buffer))
        } else {
            let read = number_of(read_signed(variables, variable, bytes));
            (
                read,
                write_signed(variables, variable, number as i64, buffer),
            )
        };
        let written = number_of(written);
        assert_eq!(read, first_of(&[1, 9, 11, 10], wrong), "{:05b}", wrong);
        assert_eq!(
            written,
            first_of(&[1, 9, 11, 10, 12], wrong),
            "{:05b}",
            wrong
        );
        assert!(written.is_none() || buffer.iter().all(|byte| *byte == FILLING));
    }
}
