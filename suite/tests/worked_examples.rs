//! The worked examples of source document 001 (BSMP 2.20), each on a board made for it. The numbers in the names are 001's sections.
//! Messages are given as 001 prints them, header and payload; where 01 departs from 001, a comment says so.
use cruachvel::{Curve, Kind, Outcome, Ran, Variable};
use suite::lent::Lent;
use suite::packets::packet;

// Variables are plain bytes, given as type and size; values are 0.
fn board(variables: &[(u8, u8)], curves: &[Curve], functions: &[u8]) -> Lent {
    let variable = |&(writable, size): &(u8, u8)| Variable {
        writable,
        size,
        kind: Kind::Plain.number(),
    };
    let variables = variables.iter().map(variable).collect();
    Lent::declared(variables, curves, functions).fresh()
}

const OK: [u8; 3] = [0xE0, 0x00, 0x00];

#[test]
fn section_3_4_2_version() {
    // 001 prints 02 0A 00, which is version 2.10; 01 has 2.20.
    let mut lent = board(&[(0, 1)], &[], &[]);
    assert_eq!(
        lent.ask(&[0x00, 0x00, 0x00]),
        [0x01, 0x00, 0x03, 0x02, 0x14, 0x00]
    );
}

#[test]
fn section_3_4_4_list_of_variables() {
    // 001's last variable has 128 bytes and is sent as 80; 01 allows 127, sent as FF.
    let mut lent = board(
        &[(0, 3), (0, 3), (1, 3), (1, 3), (0, 1), (1, 127)],
        &[],
        &[],
    );
    let list = [0x03, 0x00, 0x06, 0x03, 0x03, 0x83, 0x83, 0x01, 0xFF];
    assert_eq!(lent.ask(&[0x02, 0x00, 0x00]), list);
}

#[test]
fn section_3_4_6_list_of_groups() {
    let mut lent = board(&[[(0, 1); 5], [(1, 1); 5]].concat(), &[], &[]);
    assert_eq!(
        lent.ask(&[0x04, 0x00, 0x00]),
        [0x05, 0x00, 0x03, 0x0A, 0x05, 0x85]
    );
}

#[test]
fn sections_3_4_7_and_3_4_8_variables_of_a_group() {
    let writable = [4, 5, 6, 7, 9];
    let variables: Vec<(u8, u8)> = (0..10)
        .map(|number| (writable.contains(&number).into(), 1))
        .collect();
    let mut lent = board(&variables, &[], &[]);
    let group = [0x07, 0x00, 0x05, 0x04, 0x05, 0x06, 0x07, 0x09];
    assert_eq!(lent.ask(&[0x06, 0x00, 0x01, 0x02]), group);
}

#[test]
fn section_3_4_10_list_of_curves() {
    // 001's curve has 512 blocks of 16,384 bytes; 01 allows 65,536 bytes, so its blocks have 128 here.
    let mut lent = board(&[(0, 1)], &[Curve::read_only(128, 512)], &[]);
    let list = [0x09, 0x00, 0x05, 0x00, 0x00, 0x80, 0x02, 0x00];
    assert_eq!(lent.ask(&[0x08, 0x00, 0x00]), list);
}

#[test]
fn section_3_4_10_most_blocks_are_sent_as_0() {
    let mut lent = board(&[(0, 1)], &[Curve::writable(1, 65536)], &[]);
    let list = [0x09, 0x00, 0x05, 0x01, 0x00, 0x01, 0x00, 0x00];
    assert_eq!(lent.ask(&[0x08, 0x00, 0x00]), list);
    let last = [0x41, 0x00, 0x04, 0x00, 0xFF, 0xFF, 0x00];
    assert_eq!(lent.ask(&[0x40, 0x00, 0x03, 0x00, 0xFF, 0xFF]), last);
}

#[test]
fn sections_3_4_11_and_3_4_12_checksum_of_a_curve() {
    let mut lent = board(&[(0, 1)], &[Curve::writable(1, 1); 3], &[]);
    let sum = [
        0x01, 0x23, 0x45, 0x67, 0x89, 0xAB, 0xCD, 0xEF, 0xFE, 0xDC, 0xBA, 0x98, 0x76, 0x54, 0x32,
        0x10,
    ];
    lent.sums[2 * 16..].copy_from_slice(&sum);
    let checksum = [&[0x0B, 0x00, 0x10][..], &sum].concat();
    assert_eq!(lent.ask(&[0x0A, 0x00, 0x01, 0x02]), checksum);
    assert_eq!(lent.ask(&[0x0A, 0x00, 0x01, 0x03]), [0xE3, 0x00, 0x00]);
}

#[test]
fn section_3_8_3_recalculate_the_checksum_of_a_curve() {
    let mut lent = board(
        &[(0, 1)],
        &[Curve::writable(1, 3), Curve::read_only(1, 1)],
        &[],
    );
    let fresh = lent.sums.clone();
    let ask = [
        [0x41, 0, 4, 0, 0, 0, b'a'],
        [0x41, 0, 4, 0, 0, 1, b'b'],
        [0x41, 0, 4, 0, 0, 2, b'c'],
    ];
    for block in ask {
        assert_eq!(lent.ask(&block), OK);
    }
    // In 001 a block write sets the checksum to 0 and 42 is answered with 0B; by 2026-02 it stays, and 42 is answered with E0.
    assert_eq!(lent.sums, fresh);
    assert_eq!(lent.ask(&[0x42, 0x00, 0x01, 0x00]), OK);
    let abc = [
        0x90, 0x01, 0x50, 0x98, 0x3C, 0xD2, 0x4F, 0xB0, 0xD6, 0x96, 0x3F, 0x7D, 0x28, 0xE1, 0x7F,
        0x72,
    ];
    assert_eq!(
        (&lent.sums[..16], &lent.sums[16..]),
        (&abc[..], &fresh[16..])
    );
    assert_eq!(lent.ask(&[0x42, 0x00, 0x01, 0x02]), [0xE3, 0x00, 0x00]);
}

#[test]
fn section_3_4_14_list_of_functions() {
    let mut lent = board(&[(0, 1)], &[], &[15, 0, 0, 15, 2, 2]);
    assert_eq!(
        lent.ask(&[0x0C, 0x00, 0x00]),
        [0x0D, 0x00, 0x03, 0xF0, 0x0F, 0x22]
    );
}

#[test]
fn sections_3_5_1_and_3_5_2_read_a_variable() {
    let mut lent = board(&[(0, 1), (0, 1), (0, 1), (0, 3)], &[], &[]);
    lent.values[3..].copy_from_slice(&[0x03, 0xFF, 0xFF]);
    let value = [0x11, 0x00, 0x03, 0x03, 0xFF, 0xFF];
    assert_eq!(lent.ask(&[0x10, 0x00, 0x01, 0x03]), value);
}

#[test]
fn sections_3_5_3_and_3_5_4_read_a_group() {
    let mut lent = board(&[(0, 3), (0, 3), (1, 2), (0, 3), (0, 3), (0, 1)], &[], &[]);
    let value = [0x03, 0xFF, 0xFF];
    lent.values = [&value[..], &value, &[0, 0], &value, &value, &[0xAA]].concat();
    // 001 prints SIZE 000C before 13 bytes; SIZE is the number of bytes that follow.
    let head = [0x13, 0x00, 0x0D];
    let values = [&head[..], &value, &value, &value, &value, &[0xAA]].concat();
    assert_eq!(lent.ask(&[0x12, 0x00, 0x01, 0x01]), values);
}

#[test]
fn section_3_6_1_write_a_variable() {
    let mut lent = board(&[(1, 1), (1, 1), (1, 1), (1, 1), (1, 3), (1, 1)], &[], &[]);
    assert_eq!(lent.ask(&[0x20, 0x00, 0x04, 0x04, 0x01, 0xBB, 0xBB]), OK);
    assert_eq!(lent.values, [0, 0, 0, 0, 0x01, 0xBB, 0xBB, 0]);
}

#[test]
fn section_3_6_2_write_a_group() {
    let mut lent = board(&[(1, 3), (0, 2), (1, 3), (1, 3), (1, 3), (1, 1)], &[], &[]);
    let value = [0x01, 0xBB, 0xBB];
    let request = [
        &[0x22, 0x00, 0x0E, 0x02][..],
        &value,
        &value,
        &value,
        &value,
        &[0xCC],
    ]
    .concat();
    assert_eq!(lent.ask(&request), OK);
    let values = [&value[..], &[0, 0], &value, &value, &value, &[0xCC]].concat();
    assert_eq!(lent.values, values);
}

#[test]
fn section_3_6_3_set_bits_of_a_variable() {
    let mut lent = board(&[(1, 1); 10], &[], &[]);
    lent.values.fill(0x05);
    assert_eq!(lent.ask(&[0x24, 0x00, 0x03, 0x09, 0x53, 0xF0]), OK);
    assert_eq!(lent.values, [[0x05; 9].as_slice(), &[0xF5]].concat());
}

#[test]
fn section_3_6_3_every_operation_of_table_11() {
    let operations = [
        (0x53, 0xF5),
        (0x43, 0x05),
        (0x54, 0xA5),
        (0x41, 0x50),
        (0x4F, 0xF5),
        (0x58, 0xA5),
    ];
    for (operation, value) in operations {
        let mut lent = board(&[(1, 1)], &[], &[]);
        lent.values[0] = 0x55;
        assert_eq!(lent.ask(&[0x24, 0x00, 0x03, 0x00, operation, 0xF0]), OK);
        assert_eq!(lent.values, [value], "operation {:02X}", operation);
    }
}

#[test]
fn section_3_6_4_or_on_a_group() {
    let mut lent = board(&[(1, 1), (0, 1), (1, 2)], &[], &[]);
    lent.values.copy_from_slice(&[0x0F, 0x0F, 0xF0, 0x00]);
    assert_eq!(
        lent.ask(&[0x26, 0x00, 0x05, 0x02, 0x4F, 0x55, 0x55, 0x55]),
        OK
    );
    assert_eq!(lent.values, [0x5F, 0x0F, 0xF5, 0x55]);
}

#[test]
fn section_3_6_5_write_one_variable_and_read_another() {
    let mut lent = board(&[(1, 1), (1, 1), (1, 1), (1, 1), (1, 3), (0, 2)], &[], &[]);
    lent.values[7..].copy_from_slice(&[0xCA, 0xFE]);
    let request = [0x28, 0x00, 0x05, 0x04, 0x05, 0x01, 0xBB, 0xBB];
    assert_eq!(lent.ask(&request), [0x11, 0x00, 0x02, 0xCA, 0xFE]);
    assert_eq!(lent.values, [0, 0, 0, 0, 0x01, 0xBB, 0xBB, 0xCA, 0xFE]);
}

#[test]
fn sections_3_7_1_and_3_7_2_make_a_group_and_remove_it() {
    let mut lent = board(&[(1, 1); 8], &[], &[]);
    assert_eq!(lent.ask(&[0x30, 0x00, 0x04, 0x04, 0x05, 0x06, 0x07]), OK);
    // Its ID is that of the last group, plus 1.
    assert_eq!(
        lent.ask(&[0x06, 0x00, 0x01, 0x03]),
        [0x07, 0x00, 0x04, 0x04, 0x05, 0x06, 0x07]
    );
    // Group 0 is read-only in 001's table 7; in 01 it is writable exactly if all variables are.
    assert_eq!(
        lent.ask(&[0x04, 0x00, 0x00]),
        [0x05, 0x00, 0x04, 0x88, 0x00, 0x88, 0x84]
    );
    assert_eq!(lent.ask(&[0x32, 0x00, 0x00]), OK);
    assert_eq!(lent.ask(&[0x06, 0x00, 0x01, 0x03]), [0xE3, 0x00, 0x00]);
    assert_eq!(
        lent.ask(&[0x04, 0x00, 0x00]),
        [0x05, 0x00, 0x03, 0x88, 0x00, 0x88]
    );
}

#[test]
fn section_3_8_1_ask_for_a_block() {
    let mut lent = board(&[(0, 1)], &[Curve::read_only(2, 5); 4], &[]);
    let fifth = (3 * 5 + 4) * 2;
    lent.blocks[fifth..fifth + 2].copy_from_slice(&[0xCA, 0xFE]);
    let block = [0x41, 0x00, 0x05, 0x03, 0x00, 0x04, 0xCA, 0xFE];
    assert_eq!(lent.ask(&[0x40, 0x00, 0x03, 0x03, 0x00, 0x04]), block);
}

#[test]
fn section_3_8_2_write_a_block() {
    // 001's block carries 16,384 bytes, more than 01 allows; curve 7 has blocks of 16 here.
    let mut curves = [Curve::read_only(1, 1); 8];
    curves[7] = Curve::writable(16, 1025);
    let mut lent = board(&[(0, 1)], &curves, &[]);
    let request = [&[0x41, 0x00, 0x13, 0x07, 0x04, 0x00][..], &[0xDD; 16]].concat();
    assert_eq!(lent.ask(&request), OK);
    let start = 7 + 1024 * 16;
    assert_eq!(lent.blocks[start..], [0xDD; 16]);
    assert!(lent.blocks[..start].iter().all(|byte| *byte == 0));
}

#[test]
fn section_3_8_2_a_block_with_fewer_bytes() {
    // In 01 a read returns the whole block; by 2026-03 it returns as many bytes as the last write carried, as in 001.
    let mut lent = board(&[(0, 1)], &[Curve::writable(4, 1)], &[]);
    lent.blocks.fill(0x11);
    assert_eq!(
        lent.ask(&[0x41, 0x00, 0x05, 0x00, 0x00, 0x00, 0xDD, 0xDD]),
        OK
    );
    let block = [0x41, 0x00, 0x05, 0x00, 0x00, 0x00, 0xDD, 0xDD];
    assert_eq!(lent.ask(&[0x40, 0x00, 0x03, 0x00, 0x00, 0x00]), block);
    assert_eq!(lent.blocks, [0xDD, 0xDD, 0x11, 0x11]);
    // 001 allows a block of no bytes; 01 asks for 1 at least.
    assert_eq!(
        lent.ask(&[0x41, 0x00, 0x03, 0x00, 0x00, 0x00]),
        [0xE5, 0x00, 0x00]
    );
}

#[test]
fn sections_3_9_1_to_3_9_3_run_a_function() {
    let mut lent = board(&[(0, 1)], &[], &[0, 0, 2, 1]);
    let request = packet(1, &[0x50, 0x00, 0x03, 0x01, 0xBE, 0x57]);
    let mut reply = [0; 4104];
    let (function, due) = match lent.packet(0, &request, &mut reply) {
        Outcome::Run {
            function,
            input,
            due,
        } => {
            assert_eq!(input, [0xBE, 0x57]);
            (function.0, due)
        }
        other => panic!("{:?}", other),
    };
    assert_eq!((function, due), (1, true));
    let returned = packet(0, &[0x51, 0x00, 0x01, 0x00]);
    assert_eq!(
        lent.function_result(1, due, Ran::Gave(&[0x00]), &mut reply),
        Outcome::Reply(&returned)
    );
    let failed = packet(0, &[0x53, 0x00, 0x01, 0xBB]);
    assert_eq!(
        lent.function_result(1, due, Ran::Failed(0xBB), &mut reply),
        Outcome::Reply(&failed)
    );
}

#[test]
fn section_3_9_1_wrong_number_of_input_bytes() {
    let mut lent = board(&[(0, 1)], &[], &[0, 0, 2, 1]);
    assert_eq!(
        lent.ask(&[0x50, 0x00, 0x02, 0x01, 0xBE]),
        [0xE5, 0x00, 0x00]
    );
    assert_eq!(lent.ask(&[0x50, 0x00, 0x01, 0x02]), [0xE3, 0x00, 0x00]);
}

#[test]
fn section_3_3_size_that_is_not_the_bytes_sent() {
    let mut lent = board(&[(0, 1)], &[], &[]);
    assert_eq!(lent.ask(&[0x00, 0x00, 0x01]), [0xE1, 0x00, 0x00]);
    assert_eq!(lent.ask(&[0x10, 0x00, 0x00]), [0xE5, 0x00, 0x00]);
}
