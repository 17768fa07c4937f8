//! Refusals 2 to 6: addresses, reply buffers and packets.
use crate::calls::{refusal, refused, Entry, FILLING, VERSION};
use cruachvel::Ran;
use suite::boards::board_a;
use suite::packets::{message, packet};

#[test]
fn refusal_2_for_every_own_address_that_is_not_1_to_31() {
    for own in 0..=255 {
        let mut lent = board_a();
        lent.address.own = own;
        let expected = if (1..=31).contains(&own) {
            None
        } else {
            Some(2)
        };
        assert_eq!(
            refusal(&lent, Entry::Packet),
            expected,
            "own address {}",
            own
        );
        for entry in [Entry::FunctionResult, Entry::BoardStore, Entry::FreshBoard] {
            assert_eq!(refusal(&lent, entry), None, "{:?} has no address", entry);
        }
    }
}

#[test]
fn refusal_2_for_every_multicast_byte_without_its_least_bit() {
    for multicast in 0..=255 {
        let mut lent = board_a();
        lent.address.multicast = multicast;
        let expected = if multicast % 2 == 1 { None } else { Some(2) };
        assert_eq!(
            refusal(&lent, Entry::Packet),
            expected,
            "multicast byte {:02X}",
            multicast
        );
    }
}

#[test]
fn refusal_3_for_every_reply_buffer_under_4104_bytes() {
    let mut lent = board_a();
    let answered = packet(5, &message(VERSION, &[]));
    let silent = packet(0xF8, &message(VERSION, &[]));
    let run = packet(5, &message(0x50, &[0, 7]));
    for room in [0, 1, 5, 4103, 4104, 4105, 5000] {
        let expected = if room < 4104 { Some(3) } else { None };
        let mut buffer = vec![FILLING; room];
        for request in [&answered, &silent, &run] {
            assert_eq!(
                refused(lent.packet(0, request, &mut buffer)),
                expected,
                "{} bytes",
                room
            );
        }
        for due in [true, false] {
            let outcome = lent.function_result(0, due, Ran::Gave(&[1, 2]), &mut buffer);
            assert_eq!(refused(outcome), expected, "{} bytes", room);
        }
        assert!(expected.is_none() || buffer.iter().all(|byte| *byte == FILLING));
    }
}

#[test]
fn refusal_4_for_every_packet_under_2_or_over_4104_bytes() {
    for length in [0, 1, 2, 3, 4103, 4104, 4105, 4106, 65536] {
        let mut lent = board_a();
        let mut buffer = [FILLING; 4104];
        let mut request = vec![0; length];
        if length >= 2 {
            request[0] = 5;
            request[length - 1] = 0xFB;
        }
        let expected = if (2..=4104).contains(&length) {
            None
        } else {
            Some(4)
        };
        assert_eq!(
            refused(lent.packet(0, &request, &mut buffer)),
            expected,
            "{} bytes",
            length
        );
        assert_eq!(lent, board_a());
    }
}

#[test]
fn refusal_5_for_every_damaged_bit() {
    let good = packet(5, &message(0x20, &[1, 0x66]));
    for bit in 0..good.len() * 8 {
        let mut request = good.clone();
        request[bit / 8] ^= 1 << (bit % 8);
        let mut lent = board_a();
        let mut buffer = [FILLING; 4104];
        assert_eq!(
            refused(lent.packet(0, &request, &mut buffer)),
            Some(5),
            "bit {}",
            bit
        );
        assert_eq!((lent, buffer), (board_a(), [FILLING; 4104]), "bit {}", bit);
    }
}

#[test]
fn refusal_6_for_every_destination_that_is_neither_own_nor_a_joined_multicast() {
    for multicast in [0x01, 0x81, 0xFF, 0x55] {
        for destination in 0..=255u8 {
            let mut lent = board_a();
            lent.address.multicast = multicast;
            let joined = destination >= 248 && multicast >> (255 - destination) & 1 == 1;
            let expected = if destination == 5 || joined {
                None
            } else {
                Some(6)
            };
            let request = packet(destination, &message(0x20, &[1, 0x66]));
            let mut buffer = [FILLING; 4104];
            let refusal = refused(lent.packet(0, &request, &mut buffer));
            assert_eq!(
                refusal, expected,
                "{} of multicast byte {:02X}",
                destination, multicast
            );
            let written = if expected.is_none() { 0x66 } else { 0x5A };
            assert_eq!(
                lent.values[4], written,
                "{} of multicast byte {:02X}",
                destination, multicast
            );
        }
    }
}
