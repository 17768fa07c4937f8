//! The errors that 01 says old nodes made.
use crate::bench::{hex, variable, wire, Bench};
use suite::second::{read_signed, Outcome};
use suite::whatif::bytes::summed;

#[test]
fn old_a_short_signed_value_widened_with_zeros() {
    let variables = [variable(0, 1, 3), variable(0, 2, 4), variable(0, 4, 3)];
    assert_eq!(read_signed(&variables, 0, &[0xFF]), Ok(-1));
    assert_eq!(read_signed(&variables, 1, &[0xFE, 0xFF]), Ok(-2));
    assert_eq!(
        read_signed(&variables, 2, &[0xFF, 0xFF, 0xFF, 0xFD]),
        Ok(-3)
    );
}

#[test]
fn old_a_group_write_that_stores_two_members_and_then_meets_a_busy_third() {
    let mut bench = Bench::with(&[variable(1, 2, 0); 3], &[], &[]);
    bench.busy = 0b100;
    assert_eq!(bench.error(0x22, &[0, 9, 9, 9, 9, 9, 9]), 0xE8);
    assert_eq!(
        bench.error(0x26, &[2, 0x53, 9, 9, 9, 9, 9, 9]),
        0xE8,
        "members' masks"
    );
}

#[test]
fn old_28_that_reads_before_it_writes() {
    let mut bench = Bench::a();
    assert_eq!(bench.ask(0x28, &[1, 1, 0x77]), (0x11, vec![0x77]));
    assert_eq!(bench.ask(0x28, &[1, 2, 0x78]), (0x11, vec![0x34, 0x12]));
    assert_eq!(bench.values, hex("FF FF FF FD 78 34 12"));
}

#[test]
fn old_a_multicast_error_answered_anyway() {
    for request in [
        wire(0xF8, 0x7F, &[]),
        wire(0xF8, 0x20, &[0, 0, 0, 0, 0]),
        wire(0xF8, 0x10, &[9]),
        wire(0xFF, 0x30, &[2, 0]),
        summed(&[0xF8]),
    ] {
        let mut bench = Bench::a();
        assert_eq!(bench.outcome(&request).0, Outcome::Silent, "{:?}", request);
        assert_eq!(bench.state(), Bench::a().state());
    }
}

#[test]
fn old_65536_blocks_refused_because_the_count_is_sent_as_0() {
    let mut bench = Bench::with(&[variable(1, 1, 0)], &[1, 1, 65_536], &[]);
    assert_eq!(bench.ask(0x08, &[]), (0x09, vec![1, 0, 1, 0, 0]));
    assert_eq!(
        bench.ask(0x41, &[0, 0xFF, 0xFF, 0x42]),
        (0xE0, vec![]),
        "the last block"
    );
    assert_eq!(bench.blocks[65_535], 0x42);
    assert_eq!(
        bench.ask(0x40, &[0, 0xFF, 0xFF]),
        (0x41, vec![0, 0xFF, 0xFF, 0x42])
    );
}

#[test]
fn old_32_that_takes_groups_0_to_2_along() {
    let mut bench = Bench::a();
    assert_eq!(bench.ask(0x30, &[1]).0, 0xE0);
    assert_eq!(bench.ask(0x32, &[]), (0xE0, vec![]));
    assert_eq!(bench.ask(0x04, &[]), (0x05, vec![0x03, 0x01, 0x82]));
    assert_eq!(bench.error(0x12, &[3]), 0xE3, "groups 3 to 7 are gone");
    assert_eq!(bench.groups.sets[0], 0b010, "places keep what they hold");
    assert_eq!(bench.ask(0x30, &[0, 2]).0, 0xE0, "their numbers free again");
    assert_eq!(bench.ask(0x06, &[3]), (0x07, vec![0, 2]));
}
