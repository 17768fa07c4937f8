//! What is written for each request, and refusals 2, 3 and 14.
use crate::gateway::{every, hex, NODE, ROOM};
use suite::second_asking::{ask, Masking, Request};

/// The packet that is written to the destination that it starts with.
#[track_caller]
fn writes(request: Request, data: &str, packet: &str) {
    let packet = hex(packet);
    let written = ask(packet[0], request, &hex(data), ROOM);
    assert_eq!(written, Ok(packet), "{:?}", request);
}

// Without destination and checksum, as BSMP prints its examples.
fn message(request: Request, data: &[u8]) -> Vec<u8> {
    let packet = ask(NODE, request, data, ROOM).expect("written");
    packet[1..packet.len() - 1].to_vec()
}

#[track_caller]
fn says(request: Request, data: &str, text: &str) {
    assert_eq!(message(request, &hex(data)), hex(text), "{:?}", request);
}

fn refusal(destination: u8, request: Request, data: &[u8], room: usize) -> Option<u8> {
    ask(destination, request, data, room).err()
}

fn block(curve: usize, block: usize) -> Request {
    Request::ReadBlock { curve, block }
}

fn write_block(curve: usize, block: usize) -> Request {
    Request::WriteBlock { curve, block }
}

fn write_read(written: usize, read: usize) -> Request {
    Request::WriteRead { written, read }
}

#[test]
fn the_packets_of_the_settled_examples() {
    let toggle = Request::MaskVariable(1, Masking::Toggle);
    writes(Request::ReadVariable(0), "", "05 10 00 01 00 EA");
    writes(Request::Version, "", "05 00 00 00 FB");
    writes(Request::ListVariables, "", "05 02 00 00 F9");
    writes(Request::ListGroups, "", "05 04 00 00 F7");
    writes(
        Request::WriteVariable(0),
        "00 00 00 00",
        "05 20 00 05 00 00 00 00 00 D6",
    );
    writes(
        Request::WriteVariable(1),
        "00 00",
        "05 20 00 03 01 00 00 D7",
    );
    writes(toggle, "0F", "05 24 00 03 01 54 0F 70");
    writes(write_read(1, 1), "77", "05 28 00 03 01 01 77 57");
    writes(Request::MakeGroup, "00 02", "05 30 00 02 00 02 C7");
    writes(Request::WriteVariable(1), "66", "F8 20 00 02 01 66 7F");
    writes(block(0, 1), "", "05 40 00 03 00 00 01 B7");
    writes(block(0, 2), "", "05 40 00 03 00 00 02 B6");
    writes(Request::ReadGroup(3), "", "05 12 00 01 03 E5");
}

#[test]
fn the_packets_that_no_settled_example_shows() {
    let values = "11 22 33";
    let and = Request::MaskGroup(2, Masking::And);
    writes(Request::ShowGroup(2), "", "05 06 00 01 02 F2");
    writes(Request::ListCurves, "", "05 08 00 00 F3");
    writes(Request::ReadSum(0), "", "05 0A 00 01 00 F0");
    writes(Request::ListFunctions, "", "05 0C 00 00 EF");
    writes(Request::WriteGroup(2), values, "05 22 00 04 02 11 22 33 6D");
    writes(and, "FF 0F F0", "05 26 00 05 02 41 FF 0F F0 8F");
    writes(Request::RemoveGroups, "", "05 32 00 00 C9");
    writes(
        write_block(0, 1),
        values,
        "05 41 00 06 00 00 01 11 22 33 4D",
    );
    writes(Request::RenewSum(0), "", "05 42 00 01 00 B8");
    writes(Request::RunFunction(0), "07", "05 50 00 02 00 07 A2");
}

#[test]
fn the_messages_that_bsmp_prints() {
    let values = "01 BB BB 01 BB BB 01 BB BB 01 BB BB CC";
    let set = Request::MaskVariable(9, Masking::Set);
    let or = Request::MaskGroup(2, Masking::Or);
    says(Request::ShowGroup(2), "", "06 00 01 02");
    says(Request::ReadSum(2), "", "0A 00 01 02");
    says(Request::ReadVariable(3), "", "10 00 01 03");
    says(Request::ReadGroup(1), "", "12 00 01 01");
    says(Request::WriteVariable(4), "01BBBB", "20 00 04 04 01BBBB");
    let group = format!("22 00 0E 02 {}", values);
    says(Request::WriteGroup(2), values, &group);
    says(set, "F0", "24 00 03 09 53 F0");
    says(or, "55 55 55", "26 00 05 02 4F 55 55 55");
    says(write_read(4, 5), "01BBBB", "28 00 05 04 05 01BBBB");
    says(Request::MakeGroup, "04050607", "30 00 04 04 05 06 07");
    says(block(3, 4), "", "40 00 03 03 00 04");
    says(Request::RenewSum(0), "", "42 00 01 00");
    says(Request::RunFunction(1), "BE57", "50 00 03 01 BE 57");
    let block = [0xDD; 16_384];
    let refused = refusal(NODE, write_block(7, 1024), &block, ROOM);
    assert_eq!(refused, Some(14), "01 allows blocks of 4,096 bytes");
}

#[test]
fn each_operation_has_its_code() {
    let operations = [
        (Masking::Set, 0x53),
        (Masking::Or, 0x4F),
        (Masking::Clear, 0x43),
        (Masking::Toggle, 0x54),
        (Masking::Xor, 0x58),
        (Masking::And, 0x41),
    ];
    for (masking, code) in operations {
        let variable = message(Request::MaskVariable(1, masking), &[9]);
        let group = message(Request::MaskGroup(2, masking), &[9]);
        assert_eq!(variable, [0x24, 0x00, 0x03, 0x01, code, 0x09]);
        assert_eq!(group, [0x26, 0x00, 0x03, 0x02, code, 0x09]);
    }
}

#[test]
fn a_block_number_has_its_most_significant_byte_first() {
    says(block(1, 0xABCD), "", "40 00 03 01 AB CD");
    says(write_block(1, 0xABCD), "09", "41 00 04 01 AB CD 09");
}

#[test]
fn what_is_written_is_named_before_what_is_read() {
    says(write_read(2, 1), "08 09", "28 00 04 02 01 08 09");
}

#[test]
fn a_new_groups_ids_are_sorted_first() {
    let sorted = |ids: &[u8]| message(Request::MakeGroup, ids)[3..].to_vec();
    assert_eq!(sorted(&[2, 0]), [0, 2], "01's marked case");
    assert_eq!(sorted(&[63, 1, 200, 0, 255, 7]), [0, 1, 7, 63, 200, 255]);
    assert_eq!(
        sorted(&[2, 1, 2, 0, 1]),
        [0, 1, 1, 2, 2],
        "for the node to refuse"
    );
    assert_eq!(sorted(&[]), [], "for the node to refuse");
}

#[test]
fn no_table_is_looked_at() {
    says(Request::WriteVariable(1), "", "20 00 01 01");
    says(Request::WriteVariable(99), "01 02", "20 00 03 63 01 02");
    says(Request::RunFunction(255), "", "50 00 01 FF");
    says(write_block(0, 0), "", "41 00 03 00 00 00");
    let long_input = message(Request::RunFunction(0), &[0; 16]);
    assert_eq!(long_input.len(), 3 + 1 + 16);
}

/// How many bytes stand before the data; none for a request that carries none.
fn front(request: Request) -> Option<usize> {
    match request {
        Request::MakeGroup => Some(0),
        Request::WriteVariable(_) | Request::WriteGroup(_) | Request::RunFunction(_) => Some(1),
        Request::MaskVariable(..) | Request::MaskGroup(..) | Request::WriteRead { .. } => Some(2),
        Request::WriteBlock { .. } => Some(3),
        _ => None,
    }
}

#[test]
fn data_counts_for_nothing_where_a_request_carries_none() {
    for request in every(1, 1) {
        let bare = ask(NODE, request, &[], ROOM);
        for data in [&[9][..], &[0; 4099], &[255; 70_000]] {
            let same = ask(NODE, request, data, ROOM) == bare;
            assert_eq!(same, front(request).is_none(), "{:?}", request);
        }
    }
}

#[test]
fn refusal_14_a_payload_over_4099_bytes() {
    for request in every(1, 1) {
        if let Some(front) = front(request) {
            let longest = ask(NODE, request, &vec![7; 4099 - front], ROOM).expect("written");
            assert_eq!((longest.len(), &longest[2..4]), (4104, &[0x10, 0x03][..]));
            for data in [4100 - front, 4101 - front, 65_536 - front, 65_536, 70_000] {
                assert_eq!(refusal(NODE, request, &vec![7; data], ROOM), Some(14));
            }
        }
    }
}

#[test]
fn refusal_14_a_number_over_255() {
    let names_nothing = |place| [0, 1, 2, 4, 6, 14, 15].contains(&place);
    for number in [0, 64, 255, 256, 257, 511, 65_536, usize::MAX] {
        for (place, request) in every(number, 0).into_iter().enumerate() {
            let expected = (number > 255 && !names_nothing(place)).then_some(14);
            assert_eq!(refusal(NODE, request, &[], ROOM), expected, "{:?}", request);
        }
    }
    assert_eq!(refusal(NODE, write_read(255, 255), &[], ROOM), None);
    assert_eq!(refusal(NODE, write_read(256, 255), &[], ROOM), Some(14));
    assert_eq!(refusal(NODE, write_read(255, 256), &[], ROOM), Some(14));
}

#[test]
fn refusal_14_a_block_over_65535() {
    for number in [0, 65_535, 65_536, 65_537, usize::MAX] {
        let expected = (number > 65_535).then_some(14);
        assert_eq!(refusal(NODE, block(0, number), &[], ROOM), expected);
        assert_eq!(refusal(NODE, write_block(0, number), &[1], ROOM), expected);
    }
    assert_eq!(refusal(NODE, block(256, 0), &[], ROOM), Some(14));
}

#[test]
fn refusal_2_a_destination_not_1_to_31_or_248_to_255() {
    for destination in 0..=255 {
        let allowed = [1..=31, 248..=255].iter().any(|r| r.contains(&destination));
        for request in every(0, 0) {
            let refused = refusal(destination, request, &[], ROOM);
            assert_eq!(refused, (!allowed).then_some(2));
        }
    }
}

#[test]
fn refusal_3_a_buffer_under_4104_bytes() {
    for room in [0, 5, 4103, 4104, 4105, usize::MAX] {
        let expected = (room < 4104).then_some(3);
        for request in every(0, 0) {
            assert_eq!(refusal(NODE, request, &[], room), expected);
        }
    }
}

#[test]
fn smallest_number_first() {
    let wrong = Request::ReadVariable(256);
    assert_eq!(refusal(0, wrong, &[], 4103), Some(2));
    assert_eq!(refusal(247, wrong, &[], ROOM), Some(2));
    assert_eq!(refusal(NODE, wrong, &[], 4103), Some(3));
    assert_eq!(refusal(NODE, wrong, &[], ROOM), Some(14));
}
