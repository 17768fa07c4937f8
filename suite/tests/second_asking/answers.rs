//! What board A's answers say to their requests, and what doesn't fit.
use crate::gateway::{a, answered_by, every, from_a, hex, wire, NODE};
use suite::second_asking::{hear, signed, Heard, Learned, Masking, Request};

#[track_caller]
fn says(request: Request, reply: &str, expected: Heard) {
    assert_eq!(hear(&a(), NODE, request, &hex(reply)), Ok(expected));
}

fn values(each: &[(usize, &str)]) -> Heard {
    let value = |&(number, bytes): &(usize, &str)| (number, hex(bytes));
    Heard::Values(each.iter().map(value).collect())
}

fn write_read(written: usize, read: usize) -> Request {
    Request::WriteRead { written, read }
}

fn block(curve: usize, block: usize) -> Request {
    Request::ReadBlock { curve, block }
}

#[test]
fn the_answers_of_the_settled_examples() {
    let toggle = Request::MaskVariable(1, Masking::Toggle);
    let first = Heard::Variables(vec![(false, 4), (true, 1), (true, 2)]);
    let groups = Heard::Groups(vec![(false, 3), (false, 1), (true, 2)]);
    let version = Heard::Version([2, 20, 0]);
    let probe = values(&[(0, "FF FF FF FD")]);
    says(Request::ReadVariable(0), "00110004FFFFFFFDF1", probe);
    says(Request::Version, "00010003021400E6", version);
    says(Request::ListVariables, "00030003048182F3", first);
    says(Request::ListGroups, "0005000303018272", groups);
    says(Request::WriteVariable(0), "00E600001A", Heard::Error(0xE6));
    says(Request::WriteVariable(1), "00E500001B", Heard::Error(0xE5));
    says(toggle, "00E0000020", Heard::Done);
    says(write_read(1, 1), "001100017777", values(&[(1, "77")]));
    says(Request::ReadVariable(0), "00E100001F", Heard::Error(0xE1));
    says(Request::MakeGroup, "00E400001C", Heard::Error(0xE4));
    says(Request::Version, "00E200001E", Heard::Error(0xE2));
    let zeros = Heard::Block(vec![0; 4]);
    says(block(0, 1), "00410007000001 00000000 B7", zeros);
    says(block(0, 2), "00E400001C", Heard::Error(0xE4));
    says(Request::MakeGroup, "00E0000020", Heard::Done);
    says(
        Request::ReadVariable(1),
        "001100016688",
        values(&[(1, "66")]),
    );
}

#[test]
fn the_made_group_of_the_settled_examples() {
    let learned = Learned {
        groups: vec![0b101],
        ..a()
    };
    let reply = hex("00130006FFFFFFFD3412A7");
    let heard = hear(&learned, NODE, Request::ReadGroup(3), &reply);
    assert_eq!(heard, Ok(values(&[(0, "FFFFFFFD"), (2, "3412")])));
}

#[test]
fn the_first_answer_reads_as_minus_3() {
    let reply = hex("00110004FFFFFFFDF1");
    let heard = hear(&a(), NODE, Request::ReadVariable(0), &reply);
    match heard {
        Ok(Heard::Values(values)) => {
            let number = signed(&a(), &[3, 0, 2], values[0].0, &values[0].1);
            assert_eq!(number, Ok(-3));
        }
        other => panic!("{:?}", other),
    }
}

#[test]
fn the_answers_that_no_settled_example_shows() {
    let sum = "7DEA362B3FAC8E00956A4952A3D4F474";
    let told = |command, payload: &str, request| from_a(request, command, &hex(payload));
    let expected = Heard::Sum(hex(sum).try_into().expect("16 bytes"));
    assert_eq!(told(0x0B, sum, Request::ReadSum(0)), Ok(expected));
    let expected = Heard::Members(vec![1, 2]);
    assert_eq!(told(0x07, "01 02", Request::ShowGroup(2)), Ok(expected));
    let expected = Heard::Curves(vec![(1, 4, 2)]);
    assert_eq!(
        told(0x09, "01 0004 0002", Request::ListCurves),
        Ok(expected)
    );
    let expected = Heard::Functions(vec![(1, 2)]);
    assert_eq!(told(0x0D, "12", Request::ListFunctions), Ok(expected));
    let expected = Heard::Output(vec![0xAB, 0xCD]);
    assert_eq!(told(0x51, "AB CD", Request::RunFunction(0)), Ok(expected));
    let expected = Heard::Failed(0xBB);
    assert_eq!(told(0x53, "BB", Request::RunFunction(0)), Ok(expected));
}

// A payload that board A could send with the command, to requests about things with number 0.
fn payload(command: u8) -> Vec<u8> {
    hex(match command {
        0x01 => "02 14 00",
        0x03 => "04 81 82",
        0x05 => "03 01 82",
        0x07 => "00 01 02",
        0x09 => "01 0004 0002",
        0x0B => "7DEA362B3FAC8E00956A4952A3D4F474",
        0x0D => "12",
        0x11 => "FF FF FF FD",
        0x13 => "FF FF FF FD 5A 34 12",
        0x41 => "00 0000 00000000",
        0x51 => "AB CD",
        0x53 => "BB",
        _ => "",
    })
}

#[test]
fn an_answer_fits_its_own_request_and_an_error_fits_all() {
    for request in every(0, 0) {
        let own = answered_by(request);
        for command in 0..=255 {
            let heard = from_a(request, command, &payload(command));
            let error = (0xE1..=0xE8).contains(&command);
            let expected = error || own.contains(&command);
            assert_eq!(heard.is_ok(), expected, "{:?} {:02X}", request, command);
            assert!(expected || heard == Err(13));
            assert!(!error || heard == Ok(Heard::Error(command)));
        }
    }
}

#[test]
fn no_other_command_fits_with_any_payload() {
    for request in every(0, 0) {
        let own = answered_by(request);
        for command in (0..=255).filter(|command| !own.contains(command)) {
            for length in 1..20 {
                let heard = from_a(request, command, &vec![0; length]);
                assert_eq!(heard, Err(13), "{:?} {:02X}", request, command);
            }
        }
    }
}

#[test]
fn errors_and_e0_carry_no_payload() {
    for request in every(0, 0) {
        for command in 0xE0..=0xE9 {
            for length in [1, 2, 4099] {
                let heard = from_a(request, command, &vec![0; length]);
                assert_eq!(heard, Err(13));
            }
        }
    }
}

#[test]
fn e0_fits_whatever_was_named() {
    for number in [0, 3, 64, 255, 256, usize::MAX] {
        for request in every(number, number) {
            let heard = from_a(request, 0xE0, &[]);
            let done = answered_by(request).contains(&0xE0);
            assert_eq!(heard, if done { Ok(Heard::Done) } else { Err(13) });
            let error = from_a(request, 0xE3, &[]);
            assert_eq!(error, Ok(Heard::Error(0xE3)));
        }
    }
}

#[test]
fn the_version_is_2_20_0_and_no_other() {
    let version = |payload: &str| from_a(Request::Version, 0x01, &hex(payload));
    assert_eq!(version("02 14 00"), Ok(Heard::Version([2, 20, 0])));
    for other in [
        "02 0A 00",
        "02 14 01",
        "01 14 00",
        "02 14",
        "02 14 00 00",
        "",
    ] {
        assert_eq!(version(other), Err(13));
    }
}

#[test]
fn a_value_has_the_size_that_the_table_gives() {
    for (number, size) in [(0, 4), (1, 1), (2, 2)] {
        for length in 0..10 {
            let value: Vec<u8> = (1..=length).collect();
            let read = from_a(Request::ReadVariable(number), 0x11, &value);
            let both = from_a(write_read(1, number), 0x11, &value);
            let expected = Heard::Values(vec![(number, value)]);
            let expected = if length == size {
                Ok(expected)
            } else {
                Err(13)
            };
            assert_eq!((&read, &both), (&expected, &expected));
        }
    }
}

#[test]
fn only_the_variable_that_was_read_is_held_against_the_table() {
    for written in [0, 2, 3, 99, 255, 256] {
        let heard = from_a(write_read(written, 1), 0x11, &[7]);
        assert_eq!(heard, Ok(values(&[(1, "07")])));
    }
}

#[test]
fn an_answer_about_a_thing_that_the_table_lacks_does_not_fit() {
    for number in [1, 3, 64, 255, 256, usize::MAX] {
        let lacks_curve = from_a(Request::ReadSum(number), 0x0B, &[0; 16]);
        let lacks_function = from_a(Request::RunFunction(number), 0x51, &[0; 2]);
        let lacks_error = from_a(Request::RunFunction(number), 0x53, &[0]);
        let told = [number as u8, 0, 0, 9];
        let lacks_block = from_a(block(number, 0), 0x41, &told);
        assert_eq!(lacks_curve, Err(13));
        assert_eq!((lacks_function, lacks_error), (Err(13), Err(13)));
        assert_eq!(lacks_block, Err(13));
    }
    for number in [3, 4, 64, 255, 256, usize::MAX] {
        for length in 0..8 {
            let bytes = vec![0; length];
            assert_eq!(from_a(Request::ReadVariable(number), 0x11, &bytes), Err(13));
            assert_eq!(from_a(write_read(1, number), 0x11, &bytes), Err(13));
            assert_eq!(from_a(Request::ReadGroup(number), 0x13, &bytes), Err(13));
        }
    }
}

#[test]
fn a_groups_values_come_ascending_one_behind_the_other() {
    let learned = Learned {
        groups: vec![0b110, 0b001, 0b101],
        ..a()
    };
    let members = [
        values(&[(0, "01020304"), (1, "05"), (2, "0607")]),
        values(&[(0, "01020304")]),
        values(&[(1, "01"), (2, "0203")]),
        values(&[(1, "01"), (2, "0203")]),
        values(&[(0, "01020304")]),
        values(&[(0, "01020304"), (2, "0506")]),
    ];
    let sizes = [7, 4, 3, 3, 4, 6];
    for (group, (expected, size)) in members.into_iter().zip(sizes).enumerate() {
        for length in 0..10 {
            let bytes: Vec<u8> = (1..=length).collect();
            let reply = wire(0, 0x13, &bytes);
            let heard = hear(&learned, NODE, Request::ReadGroup(group), &reply);
            let expected = if length == size {
                Ok(expected.clone())
            } else {
                Err(13)
            };
            assert_eq!(heard, expected);
        }
    }
    let reply = wire(0, 0x13, &[0; 4]);
    let sixth = hear(&learned, NODE, Request::ReadGroup(6), &reply);
    assert_eq!(sixth, Err(13));
}

#[test]
fn groups_1_and_2_may_be_empty() {
    for (writable, empty, full) in [(true, 1, 2), (false, 2, 1)] {
        let learned = Learned {
            variables: vec![(writable, 2); 3],
            ..a()
        };
        let says = |group, bytes: &[u8]| {
            let reply = wire(0, 0x13, bytes);
            hear(&learned, NODE, Request::ReadGroup(group), &reply)
        };
        assert_eq!(says(empty, &[]), Ok(Heard::Values(vec![])));
        assert_eq!(says(empty, &[0; 6]), Err(13));
        assert_eq!(says(full, &[]), Err(13));
        assert!(says(full, &[0; 6]).is_ok() && says(0, &[0; 6]).is_ok());
    }
}

#[test]
fn the_largest_group_fills_a_reply() {
    let learned = Learned {
        variables: vec![(true, 64); 64],
        ..a()
    };
    let bytes: Vec<u8> = (0..4096).map(|n| (n / 64) as u8).collect();
    let heard = hear(
        &learned,
        NODE,
        Request::ReadGroup(0),
        &wire(0, 0x13, &bytes),
    );
    let expected = (0..64).map(|n| (n, vec![n as u8; 64])).collect();
    assert_eq!(heard, Ok(Heard::Values(expected)));
}

#[test]
fn a_block_comes_with_its_curve_and_number_and_1_to_the_block_size_of_bytes() {
    let says = |payload: &str| from_a(block(0, 1), 0x41, &hex(payload));
    for bytes in ["01", "01 02", "01 02 03", "01 02 03 04"] {
        let expected = Heard::Block(hex(bytes));
        assert_eq!(says(&format!("00 0001 {}", bytes)), Ok(expected));
    }
    for wrong in [
        "",
        "00",
        "00 00",
        "00 0001",
        "00 0001 01 02 03 04 05",
        "01 0001 01",
        "00 0000 01",
        "00 0002 01",
        "00 0101 01",
        "00 0100 01",
    ] {
        assert_eq!(says(wrong), Err(13), "{}", wrong);
    }
}

#[test]
fn a_block_number_is_not_held_against_the_table() {
    let bytes = Ok(Heard::Block(vec![9]));
    assert_eq!(from_a(block(0, 2), 0x41, &[0, 0, 2, 9]), bytes);
    assert_eq!(from_a(block(0, 65_535), 0x41, &[0, 255, 255, 9]), bytes);
    assert_eq!(from_a(block(0, 65_536), 0x41, &[0, 0, 0, 9]), Err(13));
    assert_eq!(from_a(block(0, 65_537), 0x41, &[0, 0, 1, 9]), Err(13));
    assert_eq!(from_a(block(256, 1), 0x41, &[0, 0, 1, 9]), Err(13));
}

#[test]
fn a_block_of_4096_bytes_fills_a_reply() {
    let curves = vec![(0, 1, 1), (0, 4096, 15)];
    let learned = Learned { curves, ..a() };
    let mut payload = vec![1, 0, 14];
    payload.extend(vec![6; 4096]);
    let reply = wire(0, 0x41, &payload);
    assert_eq!(reply.len(), 4104);
    let heard = hear(&learned, NODE, block(1, 14), &reply);
    assert_eq!(heard, Ok(Heard::Block(vec![6; 4096])));
    payload[0] = 0;
    let heard = hear(&learned, NODE, block(0, 14), &wire(0, 0x41, &payload));
    assert_eq!(heard, Err(13), "curve 0 has blocks of one byte");
}

#[test]
fn a_sum_has_16_bytes() {
    for length in [0, 1, 15, 16, 17, 32] {
        let heard = from_a(Request::ReadSum(0), 0x0B, &vec![3; length]);
        let sum = Ok(Heard::Sum([3; 16]));
        assert_eq!(heard, if length == 16 { sum } else { Err(13) });
    }
}

#[test]
fn an_output_has_the_tables_length_and_a_failure_one_byte() {
    let functions = vec![(0, 0), (15, 15), (0, 1)];
    let learned = Learned { functions, ..a() };
    for (function, output) in [(0, 0), (1, 15), (2, 1)] {
        for length in 0..18 {
            let bytes = vec![8; length];
            let says = |command| {
                let reply = wire(0, command, &bytes);
                hear(&learned, NODE, Request::RunFunction(function), &reply)
            };
            let ran = if length == output {
                Ok(Heard::Output(bytes.clone()))
            } else {
                Err(13)
            };
            let failed = if length == 1 {
                Ok(Heard::Failed(8))
            } else {
                Err(13)
            };
            assert_eq!((says(0x51), says(0x53)), (ran, failed));
        }
    }
}
