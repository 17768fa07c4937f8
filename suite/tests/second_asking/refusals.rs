//! Replies that are refused: 1, 2, 4, 5 and 13, smallest number first.
use crate::gateway::{a, every, hex, summed, table_counts, wire, NODE};
use suite::second_asking::{hear, Heard, Learned, Request};

const DONE: &str = "00 E0 00 00 20";

fn refusal(destination: u8, request: Request, reply: &[u8]) -> Option<u8> {
    hear(&a(), destination, request, reply).err()
}

#[test]
fn refusal_2_a_destination_not_1_to_31_or_248_to_255() {
    for destination in 0..=255 {
        let expected = match destination {
            1..=31 => None,
            248..=255 => Some(13),
            _ => Some(2),
        };
        for request in every(0, 0) {
            let error = wire(0, 0xE3, &[]);
            assert_eq!(refusal(destination, request, &error), expected);
        }
        let done = refusal(destination, Request::RemoveGroups, &hex(DONE));
        assert_eq!(done, expected);
    }
}

#[test]
fn refusal_4_a_reply_under_2_or_over_4104_bytes() {
    for request in every(0, 0) {
        for length in [0, 1, 4105, 4106, 65_536] {
            assert_eq!(refusal(NODE, request, &vec![0; length]), Some(4));
        }
        for length in [2, 3, 4, 4104] {
            assert_eq!(refusal(NODE, request, &vec![0; length]), Some(13));
        }
    }
}

#[test]
fn refusal_5_a_sum_that_is_not_0() {
    for place in 0..5 {
        for change in 1..=255 {
            let mut reply = hex(DONE);
            reply[place] ^= change;
            let refused = refusal(NODE, Request::RemoveGroups, &reply);
            assert_eq!(refused, Some(5), "no change of one byte keeps the sum");
        }
    }
    assert_eq!(refusal(NODE, Request::RemoveGroups, &[0, 1]), Some(5));
    assert_eq!(refusal(NODE, Request::RemoveGroups, &[1; 4104]), Some(5));
}

#[test]
fn refusal_13_a_reply_that_does_not_go_to_0() {
    for destination in 1..=255 {
        let done = wire(destination, 0xE0, &[]);
        let refused = refusal(NODE, Request::RemoveGroups, &done);
        assert_eq!(refused, Some(13));
        let error = wire(destination, 0xE1, &[]);
        assert_eq!(refusal(NODE, Request::Version, &error), Some(13));
    }
}

#[test]
fn refusal_13_a_reply_under_5_bytes() {
    for cut in ["00 00", "00 E1 1F", "00 E1 00 1F", "E1 1F", "00 E0 20"] {
        for request in every(0, 0) {
            assert_eq!(refusal(NODE, request, &hex(cut)), Some(13));
        }
    }
}

#[test]
fn refusal_13_a_size_that_is_not_the_number_of_payload_bytes() {
    for size in [
        "0000", "0001", "0003", "0004", "0005", "0104", "0400", "FFFF",
    ] {
        let front = hex(&format!("00 11 {}", size));
        let reply = summed([&front[..], &[1, 2, 3, 4]].concat());
        let expected = (size != "0004").then_some(13);
        assert_eq!(refusal(NODE, Request::ReadVariable(0), &reply), expected);
    }
    let error = summed(hex("00 E1 00 01"));
    assert_eq!(refusal(NODE, Request::Version, &error), Some(13));
    let error = summed(hex("00 E1 00 00 00"));
    assert_eq!(refusal(NODE, Request::Version, &error), Some(13));
}

#[test]
fn a_reply_to_a_multicast_never_fits() {
    let values = wire(0, 0x11, &[1, 2, 3, 4]);
    for destination in 248..=255 {
        let refused = refusal(destination, Request::ReadVariable(0), &values);
        assert_eq!(refused, Some(13));
        for request in every(0, 0) {
            for error in 0xE0..=0xE8 {
                let reply = wire(0, error, &[]);
                assert_eq!(refusal(destination, request, &reply), Some(13));
            }
        }
    }
}

// A call in which this is wrong, and all that has a greater number.
fn wrong_from(first: u8, request: Request) -> Result<Heard, u8> {
    let learned = if first == 1 { Learned::default() } else { a() };
    let destination = if first <= 2 { 0 } else { 248 };
    let reply: &[u8] = match first {
        1..=4 => &[1],
        5 => &[1, 1],
        _ => &[0, 0],
    };
    hear(&learned, destination, request, reply)
}

#[test]
fn smallest_number_first() {
    for request in every(0, 0) {
        let first = if table_counts(request) { 1 } else { 2 };
        assert_eq!(wrong_from(1, request), Err(first));
        assert_eq!(wrong_from(2, request), Err(2));
        assert_eq!(wrong_from(4, request), Err(4));
        assert_eq!(wrong_from(5, request), Err(5));
        assert_eq!(wrong_from(13, request), Err(13));
    }
}

#[test]
fn length_and_sum_are_told_of_a_reply_to_a_multicast_too() {
    let request = Request::RemoveGroups;
    assert_eq!(refusal(248, request, &[0]), Some(4));
    assert_eq!(refusal(248, request, &[0, 1]), Some(5));
    assert_eq!(refusal(248, request, &hex(DONE)), Some(13));
}
