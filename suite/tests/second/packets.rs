//! Where packets go, and their refusals 1 to 6.
use crate::bench::{wire, Bench, REPLY};
use suite::second::{Address, Outcome};
use suite::whatif::bytes::summed;

#[test]
fn packets_to_248_to_255_are_carried_out_if_the_multicast_byte_has_that_address() {
    for bit in 0..8 {
        let mut bench = Bench::a();
        bench.address.multicast = 1 << bit | 1;
        for destination in 248..=255 {
            let request = wire(destination, 0x20, &[1, destination]);
            if destination == 255 - bit || destination == 255 {
                assert_eq!(bench.outcome(&request).0, Outcome::Silent);
                assert_eq!(bench.values[4], destination);
            } else {
                assert_eq!(bench.refused(&request), 6);
            }
        }
    }
    let mut bench = Bench::a();
    assert_eq!(bench.outcome(&wire(0xF8, 0x30, &[1])).0, Outcome::Silent);
    assert_eq!(bench.groups.count, 1);
    assert_eq!(bench.outcome(&wire(0xF8, 0x10, &[1])).0, Outcome::Silent);
    assert_eq!(
        bench.outcome(&wire(0xF8, 0x28, &[1, 1, 3])).0,
        Outcome::Silent
    );
    assert_eq!(bench.values[4], 3);
    assert_eq!(bench.outcome(&wire(0xFF, 0x32, &[])).0, Outcome::Silent);
    assert_eq!(bench.groups.count, 0);
}

#[test]
fn refusal_1_board_unusable_before_all_others() {
    let mut bench = Bench::a();
    bench.values.pop();
    bench.address.own = 0;
    bench.reply = vec![0; 3];
    assert_eq!(bench.refused(&[]), 1);
}

#[test]
fn refusal_2_bad_address() {
    let request = wire(5, 0x00, &[]);
    for (own, multicast) in [(0, 0x81), (32, 0x81), (255, 0x81), (5, 0x80), (5, 0)] {
        let mut bench = Bench::a();
        bench.address = Address { own, multicast };
        assert_eq!(bench.refused(&request), 2);
        bench.reply = vec![0; 3];
        assert_eq!(bench.refused(&[]), 2, "smallest number first");
    }
    for own in 1..=31 {
        let mut bench = Bench::a();
        bench.address = Address { own, multicast: 1 };
        assert_eq!(bench.ask(0x00, &[]).0, 0x01);
    }
}

#[test]
fn refusal_3_reply_buffer_short() {
    let mut bench = Bench::a();
    bench.reply = vec![0; REPLY - 1];
    assert_eq!(bench.refused(&wire(5, 0x00, &[])), 3);
    assert_eq!(bench.refused(&wire(0xF8, 0x20, &[1, 2])), 3);
    assert_eq!(bench.refused(&wire(5, 0x50, &[0, 1])), 3);
    assert_eq!(bench.refused(&[]), 3);
    assert_eq!(bench.refused(&wire(6, 0x00, &[])), 3);
    bench.reply = vec![0; REPLY + 1];
    assert_eq!(bench.ask(0x00, &[]).0, 0x01);
}

#[test]
fn refusals_4_5_and_6() {
    let mut bench = Bench::a();
    assert_eq!(bench.refused(&[]), 4);
    assert_eq!(bench.refused(&[5]), 4);
    assert_eq!(bench.refused(&[0]), 4);
    assert_eq!(bench.refused(&[1; 4105]), 4);
    assert_eq!(bench.refused(&[0; 4105]), 4);
    assert_eq!(bench.refused(&[6, 0]), 5);
    assert_eq!(bench.refused(&[5, 0]), 5);
    for destination in 0..=255 {
        let request = wire(destination, 0x7F, &[9]);
        if ![0x05, 0xF8, 0xFF].contains(&destination) {
            assert_eq!(bench.refused(&request), 6);
            assert_eq!(bench.refused(&summed(&[destination])), 6);
        }
    }
    let longest = wire(5, 0x7F, &[0; 4099]);
    assert_eq!(longest.len(), 4104);
    assert_eq!(bench.outcome(&longest).1[1], 0xE2);
}
