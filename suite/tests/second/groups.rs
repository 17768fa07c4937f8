//! Groups 0 to 2, and those that are made by message.
use crate::bench::{hex, variable, Bench};

#[test]
fn groups_0_1_and_2_always_exist() {
    let mut bench = Bench::a();
    assert_eq!(bench.ask(0x06, &[0]), (0x07, vec![0, 1, 2]));
    assert_eq!(bench.ask(0x06, &[1]), (0x07, vec![0]));
    assert_eq!(bench.ask(0x06, &[2]), (0x07, vec![1, 2]));
    assert_eq!(bench.ask(0x12, &[0]), (0x13, hex("FF FF FF FD 5A 34 12")));
    assert_eq!(bench.ask(0x12, &[1]), (0x13, hex("FF FF FF FD")));
    assert_eq!(bench.ask(0x12, &[2]), (0x13, hex("5A 34 12")));
}

#[test]
fn group_0_is_writable_exactly_if_all_variables_are_and_1_is_read_only_even_if_empty() {
    let mut all_writable = Bench::with(&[variable(1, 1, 0); 2], &[], &[]);
    assert_eq!(all_writable.ask(0x04, &[]), (0x05, vec![0x82, 0x00, 0x82]));
    assert_eq!(all_writable.ask(0x06, &[1]), (0x07, vec![]));
    assert_eq!(all_writable.ask(0x12, &[1]), (0x13, vec![]));
    assert_eq!(all_writable.error(0x22, &[1]), 0xE6);
    assert_eq!(all_writable.error(0x22, &[1, 0]), 0xE5);
    assert_eq!(all_writable.error(0x26, &[1, 0x53]), 0xE6);
    assert_eq!(all_writable.error(0x26, &[1, 0x00]), 0xE2);
    assert_eq!(all_writable.error(0x26, &[1, 0x53, 0]), 0xE5);
    assert_eq!(all_writable.ask(0x22, &[0, 8, 9]), (0xE0, vec![]));
    assert_eq!(all_writable.values, [8, 9]);
}

#[test]
fn group_2_is_writable_even_if_empty() {
    let mut bench = Bench::with(&[variable(0, 1, 0); 2], &[], &[]);
    bench.busy = u64::MAX;
    let before = bench.state();
    assert_eq!(bench.ask(0x04, &[]), (0x05, vec![0x02, 0x02, 0x80]));
    assert_eq!(bench.ask(0x06, &[2]), (0x07, vec![]));
    assert_eq!(bench.ask(0x12, &[2]), (0x13, vec![]));
    assert_eq!(bench.ask(0x22, &[2]), (0xE0, vec![]));
    assert_eq!(bench.ask(0x26, &[2, 0x54]), (0xE0, vec![]));
    assert_eq!(bench.state(), before);
}

#[test]
fn a_made_group_is_writable_exactly_if_all_its_members_are() {
    let mut bench = Bench::a();
    assert_eq!(bench.ask(0x30, &[1, 2]).0, 0xE0);
    assert_eq!(bench.ask(0x30, &[0, 1]).0, 0xE0);
    assert_eq!(
        bench.ask(0x04, &[]),
        (0x05, vec![0x03, 0x01, 0x82, 0x82, 0x02])
    );
    assert_eq!(bench.ask(0x22, &[3, 1, 2, 3]), (0xE0, vec![]));
    assert_eq!(bench.values, hex("FF FF FF FD 01 02 03"));
    assert_eq!(bench.error(0x22, &[4, 1, 2, 3, 4, 5]), 0xE6);
}

#[test]
fn members_values_ascending() {
    let records = [variable(1, 1, 0), variable(1, 2, 0), variable(1, 3, 0)];
    let mut bench = Bench::with(&records, &[], &[]);
    assert_eq!(bench.ask(0x30, &[0, 2]).0, 0xE0);
    assert_eq!(bench.ask(0x22, &[3, 9, 8, 7, 6]).0, 0xE0);
    assert_eq!(bench.values, [9, 2, 3, 8, 7, 6]);
    assert_eq!(bench.ask(0x12, &[3]), (0x13, vec![9, 8, 7, 6]));
}

#[test]
fn groups_3_to_7_are_made_by_message_in_order_two_may_be_equal() {
    let mut bench = Bench::a();
    for made in 1..=5 {
        assert_eq!(bench.ask(0x30, &[1]), (0xE0, vec![]));
        assert_eq!(bench.groups.count, made);
    }
    assert_eq!(bench.error(0x30, &[1]), 0xE7, "five groups made already");
    assert_eq!(bench.ask(0x06, &[7]), (0x07, vec![1]));
    assert_eq!(bench.error(0x06, &[8]), 0xE3);
}

#[test]
fn thirty_writes_its_place_and_the_count_and_nothing_else() {
    let mut bench = Bench::a();
    bench.groups.sets = [u64::MAX; 5];
    assert_eq!(bench.ask(0x30, &[0, 1, 2]).0, 0xE0);
    assert_eq!(bench.groups.count, 1);
    assert_eq!(
        bench.groups.sets,
        [0b111, u64::MAX, u64::MAX, u64::MAX, u64::MAX]
    );
}
