//! The wire errors, in the order in which they are tested.
use crate::bench::{hex, variable, Bench};
use suite::second::Groups;
use suite::whatif::bytes::summed;

#[test]
fn e1_message_under_3_bytes_or_size_not_the_number_of_bytes_that_follow() {
    for message in [
        "05",
        "05 7F",
        "05 7F 00",
        "05 7F 00 01",
        "05 7F 00 00 00",
        "05 00 01 00",
        "05 10 00 00 00",
    ] {
        let mut bench = Bench::a();
        let (_, reply) = bench.outcome(&summed(&hex(message)));
        assert_eq!(reply, hex("00 E1 00 00 1F"), "{}", message);
    }
}

#[test]
fn e5_payload_not_of_the_fixed_size_or_shorter_than_its_front() {
    for command in [0x00, 0x02, 0x04, 0x08, 0x0C, 0x32] {
        assert_eq!(Bench::a().error(command, &[0]), 0xE5);
    }
    for command in [0x06, 0x10, 0x12] {
        assert_eq!(Bench::a().error(command, &[]), 0xE5);
        assert_eq!(Bench::a().error(command, &[99, 99]), 0xE5, "E5 before E3");
    }
    for command in [0x20, 0x22, 0x30, 0x50] {
        assert_eq!(Bench::a().error(command, &[]), 0xE5);
    }
    for command in [0x24, 0x26, 0x28] {
        assert_eq!(Bench::a().error(command, &[]), 0xE5);
        assert_eq!(Bench::a().error(command, &[99]), 0xE5, "E5 before E3");
    }
    for command in [0x40, 0x41] {
        assert_eq!(Bench::a().error(command, &[99, 99]), 0xE5, "E5 before E3");
    }
    assert_eq!(Bench::a().error(0x40, &[99, 0, 0, 0]), 0xE5);
    assert_eq!(
        Bench::a().error(0x30, &[99, 98, 97, 96]),
        0xE5,
        "for 30 more IDs than variables"
    );
}

#[test]
fn e3_any_variable_group_curve_or_function_named_that_does_not_exist() {
    let mut bench = Bench::a();
    assert_eq!(bench.error(0x10, &[3]), 0xE3);
    assert_eq!(bench.error(0x06, &[3]), 0xE3);
    assert_eq!(bench.error(0x12, &[255]), 0xE3);
    assert_eq!(bench.error(0x20, &[3]), 0xE3, "E3 before E5 of step 7");
    assert_eq!(bench.error(0x22, &[3]), 0xE3);
    assert_eq!(bench.error(0x24, &[3, 0]), 0xE3, "E3 before E2 of step 5");
    assert_eq!(bench.error(0x26, &[3, 0]), 0xE3);
    assert_eq!(bench.error(0x28, &[3, 0]), 0xE3);
    assert_eq!(bench.error(0x28, &[0, 3]), 0xE3, "either variable");
    assert_eq!(bench.error(0x30, &[1, 0, 3]), 0xE3, "E3 before E4");
    assert_eq!(bench.error(0x30, &[255]), 0xE3);
    assert_eq!(bench.error(0x40, &[1, 9, 9]), 0xE3, "E3 before E4");
    assert_eq!(bench.error(0x41, &[1, 9, 9]), 0xE3);
    assert_eq!(bench.error(0x50, &[1]), 0xE3);
    assert_eq!(bench.error(0x50, &[255, 9, 9]), 0xE3);
}

#[test]
fn e2_operation_not_one_of_the_six_before_length_read_only_and_busy() {
    let mut bench = Bench::a();
    bench.busy = u64::MAX;
    assert_eq!(bench.error(0x24, &[0, 0x52]), 0xE2);
    assert_eq!(bench.error(0x26, &[0, 0x52, 1]), 0xE2);
    assert_eq!(bench.error(0x24, &[0, 0x53]), 0xE5);
    assert_eq!(bench.error(0x24, &[0, 0x53, 1, 2, 3, 4]), 0xE6);
}

#[test]
fn e4_block_number_not_below_the_count_or_ids_not_strictly_ascending() {
    let mut bench = Bench::with(&[variable(1, 1, 0); 3], &[0, 4, 2], &[]);
    assert_eq!(bench.error(0x40, &[0, 0, 2]), 0xE4);
    assert_eq!(bench.error(0x40, &[0, 1, 0]), 0xE4);
    assert_eq!(bench.error(0x41, &[0, 0, 2]), 0xE4, "E4 before E5");
    assert_eq!(bench.error(0x41, &[0, 0, 1]), 0xE5, "E5 before E6");
    assert_eq!(bench.error(0x41, &[0, 0, 1, 1, 2, 3, 4, 5]), 0xE5);
    assert_eq!(bench.error(0x41, &[0, 0, 1, 1]), 0xE6);
    assert_eq!(bench.error(0x30, &[1, 1]), 0xE4);
    assert_eq!(bench.error(0x30, &[0, 2, 1]), 0xE4);
    bench.groups = Groups {
        count: 5,
        sets: [1; 5],
    };
    assert_eq!(bench.error(0x30, &[2, 1]), 0xE4, "E4 before E7");
    assert_eq!(bench.error(0x30, &[3]), 0xE3);
    assert_eq!(bench.error(0x30, &[1, 2]), 0xE7);
}

#[test]
fn e5_then_e6_then_e8() {
    let mut bench = Bench::a();
    bench.busy = u64::MAX;
    assert_eq!(bench.error(0x20, &[0]), 0xE5);
    assert_eq!(bench.error(0x20, &[0, 1, 2, 3, 4]), 0xE6);
    assert_eq!(bench.error(0x20, &[1, 1]), 0xE8);
    assert_eq!(bench.error(0x22, &[0, 1]), 0xE5);
    assert_eq!(bench.error(0x22, &[0, 1, 2, 3, 4, 5, 6, 7]), 0xE6);
    assert_eq!(bench.error(0x22, &[2, 1, 2, 3]), 0xE8);
}

#[test]
fn e8_keeps_its_place_in_the_order_now_for_reads_too() {
    let mut bench = Bench::a();
    bench.busy = u64::MAX;
    for command in [0x10, 0x12] {
        let (_, malformed) = bench.outcome(&summed(&[5, command, 0, 2, 0]));
        assert_eq!(malformed, hex("00 E1 00 00 1F"));
        assert_eq!(bench.error(command, &[]), 0xE5);
        assert_eq!(bench.error(command, &[0, 0]), 0xE5);
        assert_eq!(bench.error(command, &[3]), 0xE3);
        assert_eq!(bench.error(command, &[2]), 0xE8);
    }
}

#[test]
fn twenty_eight_gets_e8_after_e5_of_the_front_e3_and_the_written_ones_e5_and_e6() {
    // Of 1 and 2, the written one is busy, the read one, both.
    for busy in [0b010, 0b100, 0b111, u64::MAX] {
        let mut bench = Bench::a();
        bench.busy = busy;
        assert_eq!(bench.error(0x28, &[1]), 0xE5, "shorter than its front");
        assert_eq!(bench.error(0x28, &[3, 2, 9]), 0xE3);
        assert_eq!(bench.error(0x28, &[1, 3, 9]), 0xE3);
        assert_eq!(bench.error(0x28, &[1, 2]), 0xE5, "of step 7");
        assert_eq!(bench.error(0x28, &[1, 2, 9, 9]), 0xE5);
        assert_eq!(bench.error(0x28, &[0, 2, 9]), 0xE5, "the written one's");
        assert_eq!(bench.error(0x28, &[0, 2, 1, 2, 3, 4]), 0xE6);
        assert_eq!(bench.error(0x28, &[0, 1, 1, 2, 3, 4]), 0xE6);
        assert_eq!(bench.error(0x28, &[0, 0, 1, 2, 3, 4]), 0xE6);
        assert_eq!(bench.error(0x28, &[1, 2, 9]), 0xE8);
    }
}
