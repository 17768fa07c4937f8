//! The commands: their codes, operations, lists and blocks.
use crate::bench::{variable, Bench};
use suite::packets::{COMMANDS, OPERATIONS};

#[test]
fn the_command_codes_are_these_and_no_others_the_rest_get_e2() {
    for command in 0..=255u8 {
        if !COMMANDS.contains(&command) {
            assert_eq!(Bench::a().error(command, &[]), 0xE2, "{:02X}", command);
            assert_eq!(Bench::a().error(command, &[0; 99]), 0xE2);
        }
    }
}

#[test]
fn operations() {
    // 0011 and 0101 as value and mask.
    let cases = [
        (0x53, 0b0111, "set"),
        (0x4F, 0b0111, "or"),
        (0x43, 0b0010, "clear"),
        (0x54, 0b0110, "toggle"),
        (0x58, 0b0110, "xor"),
        (0x41, 0b0001, "and"),
    ];
    for (operation, result, name) in cases {
        let mut bench = Bench::with(&[variable(1, 1, 0); 3], &[], &[]);
        bench.values = vec![0b0011; 3];
        assert_eq!(bench.ask(0x24, &[1, operation, 0b0101]).0, 0xE0);
        assert_eq!(bench.values, [0b0011, result, 0b0011], "{}", name);
        bench.values = vec![0b0011; 3];
        assert_eq!(bench.ask(0x30, &[0, 2]).0, 0xE0);
        assert_eq!(bench.ask(0x26, &[3, operation, 0b0101, 0]).0, 0xE0);
        let zero_mask = if operation == 0x41 { 0 } else { 0b0011 };
        assert_eq!(bench.values, [result, 0b0011, zero_mask], "{}", name);
    }
    for operation in 0..=255u8 {
        if !OPERATIONS.contains(&operation) {
            assert_eq!(Bench::a().error(0x24, &[1, operation, 0]), 0xE2);
        }
    }
}

#[test]
fn a_byte_per_variable_and_per_function() {
    let records = [variable(0, 127, 0), variable(1, 127, 0), variable(1, 8, 4)];
    let mut bench = Bench::with(&records, &[], &[15, 0, 0, 15, 3, 4]);
    assert_eq!(bench.ask(0x02, &[]), (0x03, vec![0x7F, 0xFF, 0x88]));
    assert_eq!(bench.ask(0x0C, &[]), (0x0D, vec![0xF0, 0x0F, 0x34]));
    assert_eq!(bench.ask(0x08, &[]), (0x09, vec![]), "no curves");
    let mut bare = Bench::with(&records, &[], &[]);
    assert_eq!(bare.ask(0x0C, &[]), (0x0D, vec![]), "no functions");
}

#[test]
fn per_curve_type_block_size_in_two_bytes_blocks_in_two() {
    let mut bench = Bench::with(&[variable(0, 1, 0)], &[0, 4096, 1, 1, 2, 258], &[]);
    assert_eq!(
        bench.ask(0x08, &[]),
        (0x09, vec![0, 0x10, 0x00, 0, 1, 1, 0, 2, 1, 2])
    );
    let (command, whole) = bench.ask(0x40, &[0, 0, 0]);
    assert_eq!((command, whole.len()), (0x41, 4099), "the whole block");
    assert_eq!(whole[3..], bench.blocks[..4096]);
    assert_eq!(
        bench.ask(0x40, &[1, 1, 1]),
        (0x41, [&[1, 1, 1][..], &bench.blocks[4610..4612]].concat()),
        "curves stand likewise in a second store, block after block"
    );
}

#[test]
fn a_block_write_replaces_as_many_of_its_first_bytes_as_it_carries() {
    let mut bench = Bench::a();
    assert_eq!(bench.ask(0x41, &[0, 0, 1, 7]), (0xE0, vec![]));
    assert_eq!(bench.blocks, [0, 0, 0, 0, 7, 0, 0, 0]);
    assert_eq!(bench.ask(0x41, &[0, 0, 0, 1, 2, 3, 4]), (0xE0, vec![]));
    assert_eq!(bench.blocks, [1, 2, 3, 4, 7, 0, 0, 0]);
    assert_eq!(bench.error(0x41, &[0, 0, 0]), 0xE5, "1 to the block size");
    assert_eq!(bench.error(0x41, &[0, 0, 0, 1, 2, 3, 4, 5]), 0xE5);
}

#[test]
fn sixty_four_variables() {
    let mut bench = Bench::with(&[variable(1, 64, 0); 64], &[], &[]);
    assert_eq!(bench.values.len(), 4096);
    let all: Vec<u8> = (0..64).collect();
    assert_eq!(bench.ask(0x06, &[0]), (0x07, all.clone()));
    assert_eq!(bench.ask(0x30, &all).0, 0xE0);
    assert_eq!(bench.groups.sets[0], u64::MAX);
    assert_eq!(bench.ask(0x04, &[]).1, vec![0xC0, 0x00, 0xC0, 0xC0]);
    assert_eq!(bench.ask(0x12, &[3]), (0x13, bench.values.clone()));
    assert_eq!(bench.ask(0x20, &[&[63][..], &[9; 64]].concat()).0, 0xE0);
    assert_eq!(bench.values[4032..], [9; 64]);
    assert_eq!(bench.values[4031], 0xC0);
    assert_eq!(bench.error(0x10, &[64]), 0xE3);
    assert_eq!(bench.error(0x30, &[64]), 0xE3);
    let longest = [&[0, 0x54][..], &[0xFF; 4096]].concat();
    let before = bench.values.clone();
    assert_eq!(bench.ask(0x26, &longest), (0xE0, vec![]), "4,103 bytes");
    assert!(bench
        .values
        .iter()
        .zip(before)
        .all(|(&new, old)| new == !old));
}
