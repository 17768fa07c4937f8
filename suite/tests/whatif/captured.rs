//! Replies that were captured.
use crate::board_a_idle;
use suite::whatif::board_file::parse;
use suite::whatif::bytes::bytes;
use suite::whatif::{captured, Setting};

// A reply with its request, which on board A goes to 5 or to all.
fn heard(request: &str, reply: &str) -> String {
    let (request, reply) = (bytes(request).expect("hex"), bytes(reply).expect("hex"));
    captured(&reply, Some(&request), &board_a_idle()).lines()
}

fn decoded(setting: &Setting, reply: &str) -> String {
    captured(&bytes(reply).expect("hex"), None, setting).lines()
}

#[test]
fn a_value_is_decoded_as_the_variable_that_is_so_long() {
    let expected = "\
reply     00 11 00 04 FF FF FF FD F1
  destination   00              the master
  command       11              value of a variable
  SIZE          00 04           4 bytes of payload
  value of 0    FF FF FF FD     means -3
  checksum      F1              the sum is 0
answers   10, read a variable: variable 0
          28, write and read variables: variable 0
rule      the command's row: | 10 | variable | 11: value |
          the command's row: | 28 | variable written, variable read, value | 11: the second's value, after the write |
wrong     nothing
";
    assert_eq!(
        decoded(&board_a_idle(), "00 11 00 04 FF FF FF FD F1"),
        expected
    );
    let none = decoded(&board_a_idle(), "00 11 00 03 00 00 00 EC");
    assert!(none.contains("\n  value         00 00 00        3 bytes\n"));
    let expected = "
wrong     3 bytes, and variable 0 has 4
          3 bytes, and variable 1 has 1
          3 bytes, and variable 2 has 2
";
    assert!(none.ends_with(expected), "{}", none);
    let refused = "\nanswers   nothing\noutcome   refused with 13, reply doesn't fit the request\n";
    assert!(none.contains(refused), "{}", none);
}

#[test]
fn all_that_a_payload_can_be_is_told() {
    let board = "
        address 5
        variable writable 1 signed big
        variable writable 1 unsigned big
        variable read-only 2 plain
        function 0 1
        function 3 1
        group 0";
    let setting = parse(board).expect("a board");
    let value = decoded(&setting, "00 11 00 01 FF EF");
    let expected =
        "\n  value of 0    FF              means -1\n  value of 1    FF              means 255\n";
    assert!(value.contains(expected), "{}", value);
    let values = decoded(&setting, "00 13 00 02 FF FE EE");
    let expected = "
  if group      1               read-only, variable 2
  value of 2    FF FE           plain
  if group      2               writable, variables 0 1
  value of 0    FF              means -1
  value of 1    FE              means 254
  checksum";
    assert!(values.contains(expected), "{}", values);
    let output = decoded(&setting, "00 51 00 01 07 A7");
    let expected = "
  output        07              function 0: 0 bytes in, 1 out
  output        07              function 1: 3 bytes in, 1 out
";
    assert!(output.contains(expected), "{}", output);
}

#[test]
fn a_sum_is_decoded_as_that_of_each_curve_that_holds_what_it_is_of() {
    let board = "
        address 5
        variable writable 1 plain
        curve writable 4 2
        curve read-only 2 2 bytes 01
        curve read-only 8 1
        sum 0 00*16";
    let setting = parse(board).expect("a board");
    let expected = "
  sum           7D EA 36 2B 3F AC 8E 00 95 6A 49 52 A3 D4 F4 74 of what curve 0 holds
  sum           7D EA 36 2B 3F AC 8E 00 95 6A 49 52 A3 D4 F4 74 of what curve 2 holds
  checksum      2B              the sum is 0
answers   0A, query the checksum of a curve: curves 0 1 2
rule      by 2026-02 \"0A (payload: curve; answer 0B with 16 bytes)\"
wrong     nothing
";
    let sum = "00 0B 00 10 7D EA 36 2B 3F AC 8E 00 95 6A 49 52 A3 D4 F4 74 2B";
    let text = decoded(&setting, sum);
    assert!(text.ends_with(expected), "{}", text);
    let none = decoded(&setting, "00 0B 00 10 00*16 E5");
    assert!(none.contains(" of what no curve holds now\n"), "{}", none);
    let short = decoded(&setting, "00 0B 00 01 00 F4");
    assert!(
        short.contains("\n  sum           00              1 byte\n"),
        "{}",
        short
    );
}

#[test]
fn a_block_is_decoded_with_what_a_full_one_has() {
    let data = |reply: &str| {
        let text = decoded(&board_a_idle(), reply);
        let data = text.lines().find(|line| line.starts_with("  data"));
        data.unwrap_or_default().to_string()
    };
    let full = "  data          01 02 03 04     4 bytes";
    assert_eq!(data("00 41 00 07 00 00 01 01 02 03 04 AD"), full);
    let short = "  data          01 02 03        3 of 4 bytes";
    assert_eq!(data("00 41 00 06 00 00 01 01 02 03 B2"), short);
    let of_no_curve = "  data          01 02 03        3 bytes";
    assert_eq!(data("00 41 00 06 01 00 01 01 02 03 B1"), of_no_curve);
}

#[test]
fn a_wire_error_is_told_with_its_steps() {
    let expected = "
  command       E2              operation not supported
  SIZE          00 00           0 bytes of payload
  checksum      1E              the sum is 0
answers   any request
rule      step 2 of the wire errors: \"E2: command not above.\"
          step 5 of the wire errors: \"E2: operation not one of the six.\"
wrong     nothing
";
    let text = decoded(&board_a_idle(), "00 E2 00 00 1E");
    assert!(text.ends_with(expected), "{}", text);
    for code in 0xE1..=0xE8 {
        let reply = format!("00 {:02X} 00 00 {:02X}", code, 0x100 - code);
        let text = decoded(&board_a_idle(), &reply);
        let rule = "\nrule      step ";
        assert!(text.contains(rule) && text.ends_with("\nwrong     nothing\n"));
    }
}

#[test]
fn what_is_wrong_with_a_reply_is_told() {
    let wrong = [
        ("00 E0 00 00 21", "the checksum should be 20"),
        (
            "05 E0 00 00 1B",
            "the destination is 5; replies go to 0, the master",
        ),
        ("00 E0 00 01 1F", "SIZE is 1, and the payload has 0 bytes"),
        ("00 E0 20", "the message has 1 byte"),
        ("00 77 00 00 89", "77 is no reply's code"),
        (
            "00 11 10 04 00*4100 DB",
            "the reply has 4,105 bytes; at most 4,104 are allowed",
        ),
        ("", "the message has 0 bytes"),
    ];
    for (reply, line) in wrong {
        let text = decoded(&board_a_idle(), reply);
        let end = format!("\nwrong     {}\n", line);
        assert!(text.ends_with(&end), "{}", text);
    }
    let all = decoded(&board_a_idle(), "05 77 00 01 00");
    let expected = "
wrong     the destination is 5; replies go to 0, the master
          SIZE is 1, and the payload has 0 bytes
          77 is no reply's code
          the checksum should be 83
";
    assert!(all.ends_with(expected), "{}", all);
}

#[test]
fn what_a_request_asks_and_what_is_heard_is_told() {
    let expected = "\
request   05 10 00 01 00 EA
  destination   05              this board
  command       10              read a variable
  SIZE          00 01           1 byte of payload
  variable      00              variable 0: read-only, 4 bytes, signed big endian
  checksum      EA              the sum is 0
asks      10, read a variable: variable 0
reply     00 11 00 04 FF FF FF FD F1
  destination   00              the master
  command       11              value of a variable
  SIZE          00 04           4 bytes of payload
  value of 0    FF FF FF FD     means -3
  checksum      F1              the sum is 0
outcome   heard: variable 0 is FF FF FF FD, the number -3
rule      no refusal; by 2026-04 \"each answer to such a request must be read as what the board holds or as the named error\"; by 2026-04 \"Kinds don't travel on the wire: the gateway supplies them, and its numbers follow 01's reading rule.\"; the command's row: | 10 | variable | 11: value |
wrong     nothing
";
    let text = heard("05 10 00 01 00 EA", "00 11 00 04 FF FF FF FD F1");
    assert_eq!(text, expected);
    for (request, reply, asks, outcome) in HEARD {
        let text = heard(request, reply);
        let asks = format!("\nasks      {}\n", asks);
        let outcome = format!("\noutcome   heard: {}\n", outcome);
        assert!(text.contains(&asks) && text.contains(&outcome), "{}", text);
        assert!(text.ends_with("\nwrong     nothing\n"), "{}", text);
    }
}

// Each with what it asks and what is heard.
const HEARD: &[(&str, &str, &str, &str)] = &[
    (
        "05 00 00 00 FB",
        "00 01 00 03 02 14 00 E6",
        "00, query the protocol version",
        "the version 02 14 00",
    ),
    (
        "05 12 00 01 02 E6",
        "00 13 00 03 5A 34 12 4A",
        "12, read a group: group 2",
        "variable 1 is 5A; variable 2 is 34 12, the number 4660",
    ),
    (
        "05 28 00 03 01 01 77 57",
        "00 11 00 01 77 77",
        "28, write and read variables: variable 1, variable 1 read, with 1 byte",
        "variable 1 is 77",
    ),
    (
        "05 08 00 00 F3",
        "00 09 00 05 01 00 04 00 02 EB",
        "08, query the list of curves",
        "1 curve: writable, 2 blocks of 4 bytes",
    ),
    (
        "05 40 00 03 00 00 01 B7",
        "00 41 00 06 00 00 01 01 02 03 B2",
        "40, request a curve block: curve 0, block 1",
        "the block is 01 02 03",
    ),
    (
        "05 50 00 02 00 07 A2",
        "00 53 00 01 09 A3",
        "50, execute a function: function 0, with 1 byte",
        "the function failed with 09",
    ),
    (
        "05 24 00 03 01 54 0F 70",
        "00 E8 00 00 18",
        "24, binary operation on a variable: variable 1, toggle, with 1 byte",
        "the error E8, resource busy",
    ),
    (
        "05 30 00 02 02 00 C7",
        "00 E4 00 00 1C",
        "30, create a group: 2 variables; a gateway would send its IDs sorted",
        "the error E4, invalid value",
    ),
];

// Each with the refusal and the reason.
const UNHEARD: &[(&str, &str, u8, &str)] = &[
    ("05 10 00 01 00 EA", "00", 4, "the reply has 1 byte"),
    (
        "05 10 00 01 00 EA",
        "00 11 00 04 FF FF FF FD F2",
        5,
        "the sum is 01",
    ),
    (
        "05 10 00 01 00 EA",
        "05 11 00 04 FF FF FF FD EC",
        13,
        "the destination is 5; replies go to 0, the master",
    ),
    (
        "05 10 00 01 00 EA",
        "00 11 00 03 FF FF FD F1",
        13,
        "3 bytes, and variable 0 has 4",
    ),
    (
        "05 10 00 01 03 E7",
        "00 11 00 01 00 EE",
        13,
        "there is no variable 3: the learned table has 0 to 2",
    ),
    (
        "05 10 00 01 00 EA",
        "00 E0 00 00 20",
        13,
        "E0 is no answer to 10; 11 is, or one of E1 to E8",
    ),
    (
        "05 50 00 02 00 07 A2",
        "00 11 00 00 EF",
        13,
        "11 is no answer to 50; 51 or 53 is, or one of E1 to E8",
    ),
    (
        "F8 10 00 01 00 F7",
        "00 11 00 04 FF FF FF FD F1",
        13,
        "the request went to multicast address 248, which is never answered",
    ),
    (
        "05 40 00 03 00 00 01 B7",
        "00 41 00 04 00 00 00 01 BA",
        13,
        "it is block 0 of curve 0, and block 1 of curve 0 was asked for",
    ),
    (
        "05 40 00 03 00 00 01 B7",
        "00 41 00 03 00 00 01 BB",
        13,
        "0 bytes, and a block of curve 0 has 1 to 4",
    ),
    (
        "05 06 00 01 00 F4",
        "00 07 00 02 02 00 F5",
        13,
        "0 comes after 2",
    ),
    (
        "05 08 00 00 F3",
        "00 09 00 04 01 00 04 00 EE",
        13,
        "the last record has 4 of 5 bytes",
    ),
    (
        "05 02 00 00 F9",
        "00 03 00 02 04 00 F7",
        13,
        "variable 1 has 0 bytes; 1 to 127 are allowed",
    ),
    (
        "05 04 00 00 F7",
        "00 05 00 02 03 01 F5",
        13,
        "2 groups; 3 to 8 are allowed",
    ),
    (
        "05 20 00 02 01 66 72",
        "00 E6 00 01 00 19",
        13,
        "E6 has 1 byte of payload, and takes none",
    ),
    (
        "20 10 00 01 00 CF",
        "00 E3 00 00 1D",
        2,
        "the destination is 32; 1 to 31 and 248 to 255 are allowed",
    ),
];

#[test]
fn why_a_reply_is_not_heard_is_told_with_the_refusal() {
    for (request, reply, number, reason) in UNHEARD {
        let text = heard(request, reply);
        let outcome = format!("\noutcome   refused with {}, ", number);
        assert!(text.contains(&outcome), "{}", text);
        let rule = format!("\nrule      refusal {}, ", number);
        assert!(text.contains(&rule), "{}", text);
        let end = format!("\n          {}\n", reason);
        assert!(text.contains(&end), "{}", text);
        let end = format!("\nwrong     {}\n", reason);
        assert!(text.ends_with(&end), "{}", text);
    }
    let text = heard("05 10 00 01 00 EA", "00 11 00 04 FF FF FF FD F2");
    let hint = "\nhint      with F1 as its last byte the outcome would be: heard: variable 0 is FF FF FF FD, the number -3\n";
    assert!(text.contains(hint), "{}", text);
}

#[test]
fn a_request_that_no_gateway_sends_is_told_and_its_reply_decoded_alone() {
    let requests = [
        ("05 10 00 01 00 EB", "the sum is 01"),
        ("05", "the packet has 1 byte"),
        ("05 10 EB", "the message has 1 byte"),
        ("05 7F 00 00 7C", "7F is no command"),
        (
            "05 10 00 02 00 00 E9",
            "the payload has 2 bytes; 10 takes 1",
        ),
        (
            "05 24 00 01 01 D5",
            "the payload has 1 byte; 24 takes at least 2",
        ),
        (
            "05 24 00 03 01 55 0F 6F",
            "55 is none of 53, 4F, 43, 54, 58 and 41",
        ),
    ];
    for (request, reason) in requests {
        let text = heard(request, "00 E2 00 00 1E");
        let asks = format!("\nasks      nothing that a gateway sends: {}\n", reason);
        assert!(text.contains(&asks), "{}", text);
        assert!(text.contains("\nanswers   any request\n"), "{}", text);
    }
}

#[test]
fn a_board_that_answers_nothing_is_not_learned() {
    let setting = parse("address 5\nvariable writable 128 plain").expect("a board");
    let text = decoded(&setting, "00 11 00 01 07 E7");
    let expected =
        "\nwrong     the board answers nothing, so that a gateway can't learn its sizes\n";
    assert!(text.ends_with(expected), "{}", text);
    let setting = parse("address 5\nvariable writable 1 plain").expect("a board");
    let text = decoded(&setting, "00 51 00 00 AF");
    let expected = "\nwrong     the board has nothing that it could be an answer about\n";
    assert!(text.ends_with(expected), "{}", text);
}
